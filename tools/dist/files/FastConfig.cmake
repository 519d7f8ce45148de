# Fast::static and Fast::shared, of the tree in which this file lies.
get_filename_component(_fast_prefix "${CMAKE_CURRENT_LIST_DIR}/../../.." ABSOLUTE)

if(NOT TARGET Fast::static)
  add_library(Fast::static STATIC IMPORTED)
  set_target_properties(Fast::static PROPERTIES
    IMPORTED_LOCATION "${_fast_prefix}/lib/libfast.a"
    IMPORTED_LINK_INTERFACE_LANGUAGES C
    INTERFACE_INCLUDE_DIRECTORIES "${_fast_prefix}/include")

  add_library(Fast::shared SHARED IMPORTED)
  set_target_properties(Fast::shared PROPERTIES
    IMPORTED_LOCATION "${_fast_prefix}/lib/libfast.so.0"
    IMPORTED_SONAME libfast.so.0
    INTERFACE_INCLUDE_DIRECTORIES "${_fast_prefix}/include")
endif()

unset(_fast_prefix)
