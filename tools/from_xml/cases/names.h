// Numbers of names.xml, made by from_xml.
#pragma once

#include <stdint.h>

// Templates by number
enum {
    X_TEMPLATE_for = 0, // id 1
    X_TEMPLATE_30 = 1, // id 4294967295
    X_TEMPLATE_Head = 2,
    X_TEMPLATE_Empty = 3,
};

// Nodes
enum {
    X_for__class = 0, // tag 10
    X_for__class__2 = 1, // tag 10
    X_for__class__3 = 2, // tag 11
    X_for__A_B = 3, // tag 12
    X_for__A_B__2 = 4, // tag 12
    X_for__A_B__3 = 5, // tag 12
    X_for__OF_NODE = 6, // tag 13
    X_for__Note = 7,
    X_for__Great = 8,
    X_30__Time = 9, // tag 52
    X_30__class = 10, // tag 14
    X_30__class__In = 11, // tag 15
    X_30__class__In__Time = 12, // tag 52
    X_30__class__In__None = 13,
    X_30__Raw = 14, // tag 96
    X_Head__Time = 15, // tag 52
};

// Tags of FIX
enum {
    X_TAG_class = 10,
    X_TAG_class__2 = 10,
    X_TAG_class__3 = 11,
    X_TAG_A_B = 12,
    X_TAG_A_B__2 = 12,
    X_TAG_A_B__3 = 12,
    X_TAG_OF_NODE__2 = 13,
    X_TAG_Time = 52,
    X_TAG_class__4 = 14,
    X_TAG_In = 15,
    X_TAG_NoIn = 16,
    X_TAG_Raw = 96,
    X_TAG_RawLen = 95,
};

// The tag of each node, 0 where it has none
static const uint32_t X_TAG_OF_NODE[] = {
    10, 10, 11, 12, 12, 12, 13, 0, 0, 52, 14, 15, 52, 0, 96, 52,
};
