class stop course
