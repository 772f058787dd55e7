class stop course
class stop pair
