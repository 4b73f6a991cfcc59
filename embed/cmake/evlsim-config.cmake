# For cmake: find_package(evlsim) gives the targets evlsim::evlsim (shared) and evlsim::static, and evlsim_add_scenario.
# evlsim_IDENTITY is the library's version, with the proof that built it, or UNPROVED.
set(evlsim_IDENTITY "@EVLSIM_IDENTITY@")
if(evlsim_IDENTITY MATCHES "UNPROVED" AND NOT evlsim_FIND_QUIETLY)
  message(STATUS "evlsim ${evlsim_IDENTITY}")
endif()
get_filename_component(_evlsim_lib "${CMAKE_CURRENT_LIST_DIR}/../.." ABSOLUTE)
set(_evlsim_include "@EVLSIM_INCLUDE@")
if(NOT TARGET evlsim::evlsim)
  add_library(evlsim::evlsim SHARED IMPORTED)
  set_target_properties(evlsim::evlsim PROPERTIES
    IMPORTED_LOCATION "${_evlsim_lib}/libevlsim.so.0"
    IMPORTED_SONAME "libevlsim.so.0"
    INTERFACE_INCLUDE_DIRECTORIES "${_evlsim_include}")
  add_library(evlsim::static STATIC IMPORTED)
  set_target_properties(evlsim::static PROPERTIES
    IMPORTED_LOCATION "${_evlsim_lib}/libevlsim.a"
    IMPORTED_LINK_INTERFACE_LANGUAGES "C"
    INTERFACE_INCLUDE_DIRECTORIES "${_evlsim_include}")
endif()

# Refuses what can't be a test of evlsim_add_scenario, as cmake runs: no file, a text of lines, or no trace beside it.
function(_evlsim_check_scenario name scenario trace)
  if(NOT EXISTS "${scenario}")
    message(FATAL_ERROR "evlsim_add_scenario(${name}): there is no file ${scenario}")
  endif()
  file(STRINGS "${scenario}" _first LIMIT_COUNT 1 REGEX "^[ \t]*[^# \t]" ENCODING UTF-8)
  set(_line "^[ \t]*((([0-9]+|-) )?T[0-9]+ [a-z]|(board|limit|setup)[ \t]+[^= \t])")
  if(NOT "${scenario}" MATCHES "\\.toml$" OR "${_first}" MATCHES "${_line}")
    message(FATAL_ERROR "evlsim_add_scenario(${name}): ${scenario}: a scenario in TOML is wanted, as NAME.toml; `lab convert` makes one of a text of lines")
  endif()
  if(NOT EXISTS "${trace}")
    message(FATAL_ERROR "evlsim_add_scenario(${name}): there is no trace ${trace}; `evl ${scenario}` prints it")
  endif()
endfunction()

# evlsim_add_scenario(NAME FILE): a test that evl plays FILE, a scenario in TOML, and that its trace is the one that lies
# beside FILE.toml as FILE.trace. What differs is printed.
function(evlsim_add_scenario name scenario)
  find_program(EVLSIM_EVL evl HINTS "${_evlsim_lib}/../bin" "${_evlsim_lib}/../../bin")
  if(NOT EVLSIM_EVL)
    message(FATAL_ERROR "evlsim_add_scenario: there is no program evl; Debian's package evlsim has it, or EVLSIM_EVL may name it")
  endif()
  get_filename_component(_scenario "${scenario}" ABSOLUTE)
  string(REGEX REPLACE "\\.toml$" ".trace" _trace "${_scenario}")
  _evlsim_check_scenario("${name}" "${_scenario}" "${_trace}")
  # (a pipe's status would be that of diff, also where evl refuses the scenario)
  set(_refused "{ echo \"evl ended with status $? for $2: lab check says what is wrong there\" >&2; exit 1; }")
  set(_plays "told=$(\"$1\" \"$2\") || ${_refused}; printf '%s\\n' \"$told\" | diff -u \"$3\" -")
  add_test(NAME ${name} COMMAND sh -c "${_plays}" sh "${EVLSIM_EVL}" "${_scenario}" "${_trace}")
endfunction()

# evlsim_add_driver(NAME SOURCES FILE .. [DEFINITIONS WORD ..] [CALLS_ALONE] [FAILS]): a driver's own sources and its
# test, run over a simulated kernel, as a test. Their loads and stores are moments at which an interrupt may come; with
# CALLS_ALONE, or with another sanitizer in the compiler's flags, their calls alone. With FAILS the test has to fail,
# and it is left out where calls alone are moments.
set(_evlsim_runner "@EVLSIM_RUNNER@")
function(evlsim_add_driver name)
  cmake_parse_arguments(_it "CALLS_ALONE;FAILS" "" "SOURCES;DEFINITIONS" ${ARGN})
  if("${CMAKE_C_FLAGS} ${CMAKE_CXX_FLAGS}" MATCHES "-fsanitize=")
    set(_it_CALLS_ALONE TRUE)
  endif()
  if(NOT TARGET evlsim_runner)
    add_library(evlsim_runner STATIC "${_evlsim_runner}/evlsim_runner.c")
    target_include_directories(evlsim_runner PRIVATE "${_evlsim_include}/evlsim/compat")
    target_link_libraries(evlsim_runner PUBLIC evlsim::static)
  endif()
  add_executable(${name} ${_it_SOURCES})
  target_include_directories(${name} BEFORE PRIVATE "${_evlsim_include}/evlsim/compat")
  target_compile_definitions(${name} PRIVATE ${_it_DEFINITIONS})
  target_link_libraries(${name} PRIVATE evlsim_runner)
  if(NOT _it_CALLS_ALONE)
    target_compile_options(${name} PRIVATE -g -fsanitize=thread)
    if(CMAKE_C_COMPILER_ID MATCHES "Clang")
      target_compile_options(${name} PRIVATE "SHELL:-mllvm -tsan-instrument-read-before-write=1")
    endif()
  endif()
  if(NOT _it_FAILS OR NOT _it_CALLS_ALONE)
    add_test(NAME ${name} COMMAND ${name})
  endif()
  if(_it_FAILS AND NOT _it_CALLS_ALONE)
    set_tests_properties(${name} PROPERTIES WILL_FAIL TRUE)
  endif()
endfunction()
