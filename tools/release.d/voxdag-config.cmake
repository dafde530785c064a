# find_package(voxdag) gives the target voxdag::voxdag: the library and its header.
get_filename_component(voxdag_prefix "${CMAKE_CURRENT_LIST_DIR}/../../.." ABSOLUTE)
if(NOT TARGET voxdag::voxdag)
  add_library(voxdag::voxdag STATIC IMPORTED)
  set_target_properties(voxdag::voxdag PROPERTIES
    IMPORTED_LOCATION "${voxdag_prefix}/lib/libvoxdag.a"
    INTERFACE_INCLUDE_DIRECTORIES "${voxdag_prefix}/include")
endif()
