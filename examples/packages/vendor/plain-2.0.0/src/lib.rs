//! Nothing that runs while others are built.
