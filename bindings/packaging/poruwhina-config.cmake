# Defines poruwhina::poruwhina, the archive for every x86-64 processor; poruwhina::v3, that for @CPU@; and poruwhina::shared, the shared
# library of interface @INTERFACE@. The folder may be moved as a whole.
get_filename_component(_poruwhina_folder "${CMAKE_CURRENT_LIST_DIR}/../../.." ABSOLUTE)

function(_poruwhina_target name kind file)
    if(NOT TARGET poruwhina::${name})
        add_library(poruwhina::${name} ${kind} IMPORTED)
        set_target_properties(poruwhina::${name} PROPERTIES
            IMPORTED_LOCATION "${_poruwhina_folder}/lib/${file}"
            INTERFACE_INCLUDE_DIRECTORIES "${_poruwhina_folder}/include")
    endif()
endfunction()

_poruwhina_target(poruwhina STATIC libporuwhina.a)
_poruwhina_target(v3 STATIC libporuwhina-@CPU@.a)
_poruwhina_target(shared SHARED libporuwhina.so.@INTERFACE@)
set_target_properties(poruwhina::shared PROPERTIES IMPORTED_SONAME libporuwhina.so.@INTERFACE@)
