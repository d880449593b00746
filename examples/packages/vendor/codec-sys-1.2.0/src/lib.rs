//! What libcodec offers.
