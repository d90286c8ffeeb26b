//! The second implementation of the Hermitian block code of paper 01.
//!
//! It is written from paper 01 and the requests of paper 02 alone, to be compared
//! with the proved library. Every method here is the plainest one: field products
//! by shifting bits, encoding by evaluating each term at each point, unencoding
//! and recovery by Gauss elimination on one equation for each known symbol, a job
//! by recovery from the symbols brought in so far, anew at each call, and mending
//! by trying every message, or on the larger curve by Gauss elimination and
//! recovery. The encoder that puts symbols at chosen places inverts the matrix of
//! the terms' values there, and the converter looks up each point. Whether a word is a
//! codeword is checked by its products with the word of each term of the partner order.
//! Long blocks, q = 8, and blocks from chosen columns go the same way as short ones.

#![forbid(unsafe_code)]

pub mod arithmetic;
pub mod blocks;
pub mod case_record;
mod checks;
pub mod checksum;
pub mod chosen_columns;
pub mod chosen_columns_sample;
pub mod code;
pub mod conversion;
pub mod conversion_sample;
pub mod curve;
pub mod dual;
pub mod dual_sample;
pub mod field;
pub mod file_pair;
pub mod generator;
pub mod job;
pub mod job_sample;
mod linear;
pub mod long_case_record;
pub mod long_curve_sample;
pub mod long_sample;
pub mod mend;
pub mod mend_sample;
pub mod outcome;
pub mod page;
pub mod progress;
pub mod record_sample;
pub mod replay;
pub mod sample;
pub mod series_sample;
pub mod session;
pub mod sixteen_bit_sample;
pub mod systematic;
pub mod systematic_sample;
pub mod worked_session;
