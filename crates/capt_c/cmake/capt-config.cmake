# libcapt for CMake: `find_package(capt CONFIG)` gives the target capt::capt, and capt::static, which is libcapt.a.
# It stands in lib/cmake/capt, or in lib/ARCHITECTURE/cmake/capt, below the prefix.
get_filename_component(_capt_lib "${CMAKE_CURRENT_LIST_DIR}/../.." ABSOLUTE)
find_path(_capt_include capt.h
    PATHS "${_capt_lib}/../include" "${_capt_lib}/../../include" NO_DEFAULT_PATH NO_CACHE REQUIRED)
foreach(_capt_target "capt;SHARED;libcapt.so" "static;STATIC;libcapt.a")
    list(GET _capt_target 0 _capt_name)
    list(GET _capt_target 1 _capt_kind)
    list(GET _capt_target 2 _capt_file)
    if(NOT TARGET capt::${_capt_name})
        add_library(capt::${_capt_name} ${_capt_kind} IMPORTED)
        set_target_properties(capt::${_capt_name} PROPERTIES
            IMPORTED_LOCATION "${_capt_lib}/${_capt_file}"
            INTERFACE_INCLUDE_DIRECTORIES "${_capt_include}")
    endif()
endforeach()
