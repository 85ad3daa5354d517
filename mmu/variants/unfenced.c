/* A kernel that leaves the fences out: tests have to notice. */
void __wrap_fence_first_stage(void) {}
