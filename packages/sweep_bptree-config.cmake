# The targets sweep_bptree::sweep_bptree, the shared object, and sweep_bptree::static.
get_filename_component(_sweep_bptree "${CMAKE_CURRENT_LIST_DIR}/../.." ABSOLUTE)
if(NOT TARGET sweep_bptree::sweep_bptree)
  add_library(sweep_bptree::sweep_bptree SHARED IMPORTED)
  set_target_properties(sweep_bptree::sweep_bptree PROPERTIES
    IMPORTED_LOCATION "${_sweep_bptree}/libsweep_bptree.so" IMPORTED_SONAME libsweep_bptree.so.0)
  add_library(sweep_bptree::static STATIC IMPORTED)
  set_target_properties(sweep_bptree::static PROPERTIES
    IMPORTED_LOCATION "${_sweep_bptree}/libsweep_bptree.a"
    INTERFACE_LINK_LIBRARIES "${_sweep_bptree}/libsweep_bptree_heap.a")
  set_property(TARGET sweep_bptree::sweep_bptree sweep_bptree::static PROPERTY
    INTERFACE_INCLUDE_DIRECTORIES "${_sweep_bptree}/../../include")
endif()
unset(_sweep_bptree)
