# The library as the imported targets sas::sas (shared) and sas::static.
get_filename_component(_sas_lib "${CMAKE_CURRENT_LIST_DIR}" ABSOLUTE)
get_filename_component(_sas_include "${CMAKE_CURRENT_LIST_DIR}" ABSOLUTE)

if(NOT TARGET sas::sas)
  add_library(sas::sas SHARED IMPORTED)
  set_target_properties(sas::sas PROPERTIES
    IMPORTED_LOCATION "${_sas_lib}/libsas.so.1"
    IMPORTED_SONAME libsas.so.1
    INTERFACE_INCLUDE_DIRECTORIES "${_sas_include}")
  add_library(sas::static STATIC IMPORTED)
  set_target_properties(sas::static PROPERTIES
    IMPORTED_LOCATION "${_sas_lib}/libsas.a"
    INTERFACE_INCLUDE_DIRECTORIES "${_sas_include}")
  # sas.hpp requires it; a project in C alone has no features of C++
  if(CMAKE_CXX_COMPILER_LOADED)
    set_target_properties(sas::sas sas::static PROPERTIES INTERFACE_COMPILE_FEATURES cxx_std_17)
  endif()
endif()
unset(_sas_lib)
unset(_sas_include)
