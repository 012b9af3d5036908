# The targets homotopy::homotopy, the shared library, and homotopy::static, for find_package(homotopy).
get_filename_component(_homotopy_libraries "${CMAKE_CURRENT_LIST_DIR}/../.." REALPATH)
get_filename_component(_homotopy_include "${_homotopy_libraries}/@UP@/include" REALPATH)
if(NOT TARGET homotopy::homotopy)
  add_library(homotopy::homotopy SHARED IMPORTED)
  set_target_properties(homotopy::homotopy PROPERTIES
    IMPORTED_LOCATION "${_homotopy_libraries}/libhomotopy.so.@VERSION@"
    IMPORTED_SONAME "libhomotopy.so.@MAJOR@"
    INTERFACE_INCLUDE_DIRECTORIES "${_homotopy_include}")
  add_library(homotopy::static STATIC IMPORTED)
  set_target_properties(homotopy::static PROPERTIES
    IMPORTED_LOCATION "${_homotopy_libraries}/libhomotopy.a"
    INTERFACE_INCLUDE_DIRECTORIES "${_homotopy_include}")
endif()
unset(_homotopy_libraries)
unset(_homotopy_include)
