/* MulticoreBSP's class for programs in C++. Its begin runs spmd of one instance on each rank; each node starts main by itself, so what
   stands before begin is run by every node. */
#ifndef MCBSP_HPP
#define MCBSP_HPP

#pragma GCC system_header

#include "bsp.h"

namespace mcbsp {

class BSP_program {
protected:
    virtual void spmd() = 0;
    /* What other ranks would start with: here each rank has an instance that it made itself. */
    virtual BSP_program *newInstance() = 0;
    virtual void destroyInstance(BSP_program *const instance) { delete instance; }

public:
    virtual ~BSP_program() {}

    void begin(const bsp_nprocs_t P = bsp_nprocs())
    {
        bsp_begin(P);
        spmd();
        bsp_end();
    }
};

} // namespace mcbsp

#endif
