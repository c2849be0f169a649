// The folds of this repository over a view, from the static library of crates/q_speed_view.
#include "ours.h"

library_folds q_speed_view;

struct burst by_run_fold(const struct job *job, uint64_t folds) { return timed(q_speed_view, job, folds, false); }

struct burst by_fold_checked(const struct job *job, uint64_t folds) { return timed(q_speed_view, job, folds, true); }
