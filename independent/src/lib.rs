//! An independent reading of document 01 ("Ready tables and their
//! reduction") and of requests 101, 102, 104, 105, 106, 107 and 109, made to be compared with
//! the product.

pub mod alike;
pub mod breadth;
pub mod calls;
pub mod cutter;
pub mod damage;
pub mod direct;
pub mod disordered;
pub mod faulty;
pub mod given_up;
pub mod judge;
pub mod large;
pub mod last_run;
pub mod levels;
pub mod load;
pub mod misled;
pub mod mistaken;
pub mod ordering;
pub mod parallel;
pub mod product;
pub mod radio;
pub mod random;
pub mod rules;
pub mod runs;
pub mod shapes;
pub mod sheet;
pub mod small;
pub mod spoiled;
pub mod table;
pub mod wrong;
