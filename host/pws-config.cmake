# find_package(pws): the target pws::pws, found from where this file lies, PREFIX/lib/cmake/pws.
get_filename_component(pws_prefix "${CMAKE_CURRENT_LIST_DIR}/../../.." ABSOLUTE)
if(NOT TARGET pws::pws)
    add_library(pws::pws STATIC IMPORTED)
    set_target_properties(pws::pws PROPERTIES
        IMPORTED_LOCATION "${pws_prefix}/lib/libpws.a"
        INTERFACE_INCLUDE_DIRECTORIES "${pws_prefix}/include"
        INTERFACE_COMPILE_FEATURES cxx_std_20)
endif()
unset(pws_prefix)
