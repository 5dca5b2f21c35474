# Defines curlewmetal::curlewmetal, the shared library, and curlewmetal::static, the static one.
if(NOT TARGET curlewmetal::curlewmetal)
  get_filename_component(_curlewmetal_prefix "${CMAKE_CURRENT_LIST_DIR}/../../.." ABSOLUTE)
  add_library(curlewmetal::curlewmetal SHARED IMPORTED)
  set_target_properties(curlewmetal::curlewmetal PROPERTIES
    IMPORTED_LOCATION "${_curlewmetal_prefix}/lib/libcurlewmetal.so.@VERSION@"
    IMPORTED_SONAME "libcurlewmetal.so.@MAJOR@"
    INTERFACE_INCLUDE_DIRECTORIES "${_curlewmetal_prefix}/include")
  add_library(curlewmetal::static STATIC IMPORTED)
  set_target_properties(curlewmetal::static PROPERTIES
    IMPORTED_LOCATION "${_curlewmetal_prefix}/lib/libcurlewmetal.a"
    INTERFACE_INCLUDE_DIRECTORIES "${_curlewmetal_prefix}/include")
  unset(_curlewmetal_prefix)
endif()
