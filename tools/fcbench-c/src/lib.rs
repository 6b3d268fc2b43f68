//! The half of `libfcbench.a` that is not proved: `fcbench_find` and `fcbench_judge`. They find
//! evidence, and give the status with which the proved half answers it. `include/fcbench.h`
//! declares both halves.

mod c;
mod evidence;
mod status;
