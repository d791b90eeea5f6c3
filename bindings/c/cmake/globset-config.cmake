# find_package(globset) takes this file. The targets are globset::globset, the shared library, and globset::static. It lies beside
# globset.h, as bindings/c/build has it, or in lib/cmake/globset of a folder with include and lib.
get_filename_component(_globset_lib "${CMAKE_CURRENT_LIST_DIR}" ABSOLUTE)
set(_globset_include "${_globset_lib}")
if(NOT EXISTS "${_globset_include}/globset.h")
    get_filename_component(_globset_lib "${CMAKE_CURRENT_LIST_DIR}/../.." ABSOLUTE)
    get_filename_component(_globset_include "${_globset_lib}/../include" ABSOLUTE)
endif()
foreach(_globset_file "${_globset_include}/globset.h" "${_globset_lib}/libglobset.a" "${_globset_lib}/libglobset.so")
    if(NOT EXISTS "${_globset_file}")
        set(globset_FOUND FALSE)
        set(globset_NOT_FOUND_MESSAGE "${_globset_file} is not there")
        return()
    endif()
endforeach()
if(NOT TARGET globset::globset)
    add_library(globset::globset SHARED IMPORTED)
    set_target_properties(globset::globset PROPERTIES
        IMPORTED_LOCATION "${_globset_lib}/libglobset.so"
        INTERFACE_INCLUDE_DIRECTORIES "${_globset_include}")
    add_library(globset::static STATIC IMPORTED)
    set_target_properties(globset::static PROPERTIES
        IMPORTED_LOCATION "${_globset_lib}/libglobset.a"
        INTERFACE_INCLUDE_DIRECTORIES "${_globset_include}")
endif()
