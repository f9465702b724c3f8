# It suits whoever asks for this version, or for an earlier one with the same first number.
string(REGEX MATCH "^[0-9]+" _wkt_first "${PACKAGE_VERSION}")
if("${PACKAGE_FIND_VERSION_MAJOR}" STREQUAL _wkt_first AND NOT PACKAGE_VERSION VERSION_LESS PACKAGE_FIND_VERSION)
    set(PACKAGE_VERSION_COMPATIBLE TRUE)
endif()
if(PACKAGE_VERSION VERSION_EQUAL "${PACKAGE_FIND_VERSION}")
    set(PACKAGE_VERSION_EXACT TRUE)
endif()
