# A Cortex-M4 by the kit's own clang and linker: nothing else need be installed.
set(CMAKE_SYSTEM_NAME Generic)
set(CMAKE_SYSTEM_PROCESSOR cortex-m4)
get_filename_component(root "${CMAKE_CURRENT_LIST_DIR}/../.." ABSOLUTE)
execute_process(COMMAND "${root}/tools/kit" OUTPUT_VARIABLE kit OUTPUT_STRIP_TRAILING_WHITESPACE COMMAND_ERROR_IS_FATAL ANY)
set(tools "${kit}/toolchain/bin")
set(CMAKE_C_COMPILER "${tools}/clang")
set(CMAKE_AR "${tools}/llvm-ar" CACHE FILEPATH "")
set(CMAKE_C_COMPILER_TARGET thumbv7em-none-eabi)
# the kit has no headers of a compiler: the few that are asked for are in ports/include
set(CMAKE_C_FLAGS_INIT "-mcpu=cortex-m4 -mfloat-abi=soft -fshort-enums -nostdinc -isystem ${root}/ports/include")
set(CMAKE_EXE_LINKER_FLAGS_INIT "-nostdlib --ld-path=${tools}/ld.lld -Wl,-n")
set(CMAKE_TRY_COMPILE_TARGET_TYPE STATIC_LIBRARY)
