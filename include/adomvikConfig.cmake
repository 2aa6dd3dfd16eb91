# The CMake package of the library: find_package(adomvik) gives the target adomvik::adomvik.
# It lies in PREFIX/lib/cmake/adomvik, so that an installed folder can be moved.
get_filename_component(adomvik_PREFIX "${CMAKE_CURRENT_LIST_DIR}/../../.." ABSOLUTE)
if(NOT TARGET adomvik::adomvik)
    add_library(adomvik::adomvik STATIC IMPORTED)
    set_target_properties(adomvik::adomvik PROPERTIES
        IMPORTED_LOCATION "${adomvik_PREFIX}/lib/libadomvik.a"
        INTERFACE_INCLUDE_DIRECTORIES "${adomvik_PREFIX}/include")
endif()
