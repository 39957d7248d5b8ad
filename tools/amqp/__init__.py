"""AMQP 1.0 as the tools read and spell it: values, frames, performatives, recordings."""
