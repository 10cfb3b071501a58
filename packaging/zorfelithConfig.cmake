# The targets zorfelith::zorfelith, the shared library, and zorfelith::zorfelith_static.
get_filename_component(_zorfelith_lib "${CMAKE_CURRENT_LIST_DIR}/../.." ABSOLUTE)
get_filename_component(_zorfelith_include "${_zorfelith_lib}/@INCLUDE_FROM_LIB@" ABSOLUTE)

if(NOT TARGET zorfelith::zorfelith)
  add_library(zorfelith::zorfelith SHARED IMPORTED)
  set_target_properties(zorfelith::zorfelith PROPERTIES
    IMPORTED_LOCATION "${_zorfelith_lib}/libzorfelith.so"
    INTERFACE_INCLUDE_DIRECTORIES "${_zorfelith_include}")
endif()

if(NOT TARGET zorfelith::zorfelith_static)
  add_library(zorfelith::zorfelith_static STATIC IMPORTED)
  set_target_properties(zorfelith::zorfelith_static PROPERTIES
    IMPORTED_LOCATION "${_zorfelith_lib}/libzorfelith.a"
    INTERFACE_INCLUDE_DIRECTORIES "${_zorfelith_include}")
endif()

unset(_zorfelith_lib)
unset(_zorfelith_include)
