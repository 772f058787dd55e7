"""Random programs of occam, what they mean, and mistakes in them: the judge of the compiler, which shares nothing with it."""
