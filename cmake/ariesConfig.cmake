# find_package(aries) makes the target aries::aries: the header, the proved archive, and its heap over malloc.
# A program with a heap of its own links aries::aries_c, and has the three symbols of heap.c itself.
# aries::aries_files is the files of aries_files.h, over aries::aries. If a program has a heap of its own, that is taken.
get_filename_component(aries_prefix "${CMAKE_CURRENT_LIST_DIR}/../../.." ABSOLUTE)

if(NOT TARGET aries::aries)
    add_library(aries::aries_c STATIC IMPORTED)
    set_target_properties(aries::aries_c PROPERTIES
        IMPORTED_LOCATION "${aries_prefix}/lib/libaries_c.a"
        INTERFACE_INCLUDE_DIRECTORIES "${aries_prefix}/include")

    add_library(aries::aries STATIC IMPORTED)
    set_target_properties(aries::aries PROPERTIES
        IMPORTED_LOCATION "${aries_prefix}/lib/libaries_heap.a"
        INTERFACE_INCLUDE_DIRECTORIES "${aries_prefix}/include"
        INTERFACE_LINK_LIBRARIES "${aries_prefix}/lib/libaries_c.a;${aries_prefix}/lib/libaries_heap.a")

    add_library(aries::aries_files STATIC IMPORTED)
    set_target_properties(aries::aries_files PROPERTIES
        IMPORTED_LOCATION "${aries_prefix}/lib/libaries_files.a"
        INTERFACE_INCLUDE_DIRECTORIES "${aries_prefix}/include"
        INTERFACE_LINK_LIBRARIES aries::aries)
endif()

unset(aries_prefix)
