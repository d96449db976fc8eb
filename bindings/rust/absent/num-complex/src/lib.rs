//! Stands in for num-complex where the feature is not asked for; it holds nothing.
