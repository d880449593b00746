#![allow(unused)]
//! Derives it.
