/* Names that the files of Thrust want of its configuration. */
#pragma once
#define __host__
#define __device__
#define THRUST_NAMESPACE_BEGIN namespace thrust {
#define THRUST_NAMESPACE_END }
#define THRUST_CPP_DIALECT 2011
