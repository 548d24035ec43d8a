#include "comm.hpp"
comm::Session::Session() { bsp_begin(bsp_nprocs()); }
comm::Session::~Session() { bsp_end(); }
int comm::Session::rank() { return bsp_pid(); }
int comm::Session::size() { return bsp_nprocs(); }
