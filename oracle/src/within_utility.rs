//! Stands inside `utility`: what it holds private can be reached from here.
