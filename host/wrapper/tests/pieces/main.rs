//! The log's work in pieces (document 02, Q-13): the requests of faithful feeding are the model's and do what attach does; files
//! that change meanwhile, pieces of another length and numbers that no machine has; and the drivers over files.
mod changing;
mod drivers;
mod faithful;
mod lengths;
mod numbers;
