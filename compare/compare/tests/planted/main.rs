//! The negative control: a difference that is planted between the port's answer and the comparison is seen in every
//! case in which it was planted, and on the same cases nothing is seen without it.

mod closings;
mod jobs;
mod layers;
mod pieces;
mod plant;
mod runs;
mod texts;
