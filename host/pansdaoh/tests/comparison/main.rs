//! The library against the independent implementation `reference`: the same
//! numbers, and each byte of the lent buffers.

mod averaging;
mod building;
mod changing;
mod compare;
mod full_size;
mod kept_up;
mod leading_zeros;
mod lines;
mod listening;
mod looking_up;
mod reading_back;
mod refusals;
mod sizing;
mod wrapper;
