//! Numbers of names.xml, made by from_xml.
#![allow(dead_code, non_upper_case_globals)]

// Templates by number
pub const X_TEMPLATE_for: u32 = 0; // id 1
pub const X_TEMPLATE_30: u32 = 1; // id 4294967295
pub const X_TEMPLATE_Head: u32 = 2;
pub const X_TEMPLATE_Empty: u32 = 3;

// Nodes
pub const X_for__class: u32 = 0; // tag 10
pub const X_for__class__2: u32 = 1; // tag 10
pub const X_for__class__3: u32 = 2; // tag 11
pub const X_for__A_B: u32 = 3; // tag 12
pub const X_for__A_B__2: u32 = 4; // tag 12
pub const X_for__A_B__3: u32 = 5; // tag 12
pub const X_for__OF_NODE: u32 = 6; // tag 13
pub const X_for__Note: u32 = 7;
pub const X_for__Great: u32 = 8;
pub const X_30__Time: u32 = 9; // tag 52
pub const X_30__class: u32 = 10; // tag 14
pub const X_30__class__In: u32 = 11; // tag 15
pub const X_30__class__In__Time: u32 = 12; // tag 52
pub const X_30__class__In__None: u32 = 13;
pub const X_30__Raw: u32 = 14; // tag 96
pub const X_Head__Time: u32 = 15; // tag 52

// Tags of FIX
pub const X_TAG_class: u32 = 10;
pub const X_TAG_class__2: u32 = 10;
pub const X_TAG_class__3: u32 = 11;
pub const X_TAG_A_B: u32 = 12;
pub const X_TAG_A_B__2: u32 = 12;
pub const X_TAG_A_B__3: u32 = 12;
pub const X_TAG_OF_NODE__2: u32 = 13;
pub const X_TAG_Time: u32 = 52;
pub const X_TAG_class__4: u32 = 14;
pub const X_TAG_In: u32 = 15;
pub const X_TAG_NoIn: u32 = 16;
pub const X_TAG_Raw: u32 = 96;
pub const X_TAG_RawLen: u32 = 95;

/// The tag of each node, 0 where it has none
pub const X_TAG_OF_NODE: [u32; 16] = [
    10, 10, 11, 12, 12, 12, 13, 0, 0, 52, 14, 15, 52, 0, 96, 52,
];
