# find_package(fuzzydate): makes the target fuzzydate::fuzzydate, the header with the library for the system that is built for. The variable
# FUZZYDATE_TARGET names another folder of lib in its place.

# Sets a variable to the folder of lib for the system that is built for, and to nothing where there is none. A system is its name, what is
# built for (device or simulator, on Apple's), and its processor; a folder is named as cargo names its target.
function(fuzzydate_choose variable)
    set(machine "${CMAKE_SYSTEM_PROCESSOR}")
    if(ANDROID)
        set(machine "${CMAKE_ANDROID_ARCH_ABI}")
        if(ANDROID_ABI)
            set(machine "${ANDROID_ABI}")
        endif()
    elseif(CMAKE_OSX_ARCHITECTURES)
        set(machine "${CMAKE_OSX_ARCHITECTURES}")
    endif()
    set(system "${CMAKE_SYSTEM_NAME}")
    if(CMAKE_OSX_SYSROOT MATCHES "[Ss]imulator")
        string(APPEND system "-simulator")
    endif()
    set(folders
        "Linux (x86_64|AMD64)=x86_64-unknown-linux-gnu"
        "Linux (aarch64|arm64)=aarch64-unknown-linux-gnu"
        "Linux (arm|armv7.*|armv8l)=armv7-unknown-linux-gnueabihf"
        "Android arm64-v8a=aarch64-linux-android"
        "Android armeabi-v7a=armv7-linux-androideabi"
        "Android x86_64=x86_64-linux-android"
        "iOS (arm64|aarch64)=aarch64-apple-ios"
        "iOS-simulator (arm64|aarch64)=aarch64-apple-ios-sim"
        "Darwin (arm64|aarch64)=aarch64-apple-darwin"
        "watchOS (arm64|aarch64)=aarch64-apple-watchos"
        "watchOS arm64_32=arm64_32-apple-watchos")
    set(chosen "")
    foreach(entry IN LISTS folders)
        string(REGEX MATCH "^(.*)=(.*)$" entry "${entry}")
        set(folder "${CMAKE_MATCH_2}")
        if("${system} ${machine}" MATCHES "^${CMAKE_MATCH_1}$")
            set(chosen "${folder}")
        endif()
    endforeach()
    # a 32-bit program on a 64-bit processor
    if(chosen MATCHES "^(x86_64|aarch64)" AND CMAKE_SIZEOF_VOID_P EQUAL 4)
        set(chosen "")
    endif()
    set(${variable} "${chosen}" PARENT_SCOPE)
endfunction()

if(FUZZYDATE_TARGET)
    set(fuzzydate_folder "${FUZZYDATE_TARGET}")
else()
    fuzzydate_choose(fuzzydate_folder)
endif()
get_filename_component(fuzzydate_root "${CMAKE_CURRENT_LIST_DIR}/../../.." ABSOLUTE)
set(fuzzydate_library "${fuzzydate_root}/lib/${fuzzydate_folder}/libfuzzydate.a")

if(NOT EXISTS "${fuzzydate_library}")
    set(fuzzydate_FOUND FALSE)
    set(fuzzydate_NOT_FOUND_MESSAGE
        "no library for ${CMAKE_SYSTEM_NAME} on ${CMAKE_SYSTEM_PROCESSOR}: FUZZYDATE_TARGET may name a folder of ${fuzzydate_root}/lib")
elseif(NOT TARGET fuzzydate::fuzzydate)
    add_library(fuzzydate::fuzzydate STATIC IMPORTED)
    set_target_properties(fuzzydate::fuzzydate PROPERTIES
        IMPORTED_LOCATION "${fuzzydate_library}"
        INTERFACE_INCLUDE_DIRECTORIES "${fuzzydate_root}/include")
endif()
