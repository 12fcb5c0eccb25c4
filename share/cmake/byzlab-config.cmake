# The library byzlab for CMake. find_package(byzlab 1 REQUIRED) makes two targets: byzlab::byzlab, which is libbyzlab.so, and
# byzlab::static, which is libbyzlab.a. Paths are relative to this file, so that the installed folder may be moved.
if(NOT TARGET byzlab::byzlab)
  # (the real path, since /lib may be a link to /usr/lib)
  get_filename_component(_byzlab_here "${CMAKE_CURRENT_LIST_DIR}" REALPATH)
  get_filename_component(_byzlab_lib "${_byzlab_here}/../.." ABSOLUTE)
  get_filename_component(_byzlab_include "${_byzlab_here}/@include@" ABSOLUTE)
  add_library(byzlab::byzlab SHARED IMPORTED)
  set_target_properties(byzlab::byzlab PROPERTIES
    IMPORTED_LOCATION "${_byzlab_lib}/@soname@"
    IMPORTED_SONAME "@soname@"
    INTERFACE_INCLUDE_DIRECTORIES "${_byzlab_include}")
  add_library(byzlab::static STATIC IMPORTED)
  set_target_properties(byzlab::static PROPERTIES
    IMPORTED_LOCATION "${_byzlab_lib}/libbyzlab.a"
    INTERFACE_INCLUDE_DIRECTORIES "${_byzlab_include}")
  unset(_byzlab_here)
  unset(_byzlab_lib)
  unset(_byzlab_include)
endif()
