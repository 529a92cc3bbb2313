/* Meets the refusals of each function in their order, and prints a line for each call: the function, its answer and the memory that
 * it changed. answers.py holds these lines against the header. The exit status is 0 if what document 01 says beside holds. */
#include "refusals.h"

int main(void) {
    chain_of_validate();
    chain_of_new();
    chain_of_observe();
    chain_of_save();
    chain_of_restore();
    chain_of_fit_counts();
    chain_of_fit_counts_with();
    chain_of_check_model();
    chain_of_signal();
    chain_of_window_of();
    chain_of_calibrate();
    chain_of_replay();
    return failed;
}
