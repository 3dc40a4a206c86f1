# find_package(terra) gives the targets terra::terra (static) and terra::shared.
get_filename_component(_terra_prefix "${CMAKE_CURRENT_LIST_DIR}/../../.." ABSOLUTE)

if(NOT TARGET terra::terra)
  add_library(terra::terra STATIC IMPORTED)
  set_target_properties(terra::terra PROPERTIES
    IMPORTED_LOCATION "${_terra_prefix}/lib/libterra.a"
    INTERFACE_INCLUDE_DIRECTORIES "${_terra_prefix}/include")
  add_library(terra::shared SHARED IMPORTED)
  set_target_properties(terra::shared PROPERTIES
    IMPORTED_LOCATION "${_terra_prefix}/lib/libterra.so.0"
    INTERFACE_INCLUDE_DIRECTORIES "${_terra_prefix}/include")
endif()

unset(_terra_prefix)
