# The class of a teacher in which ada is, with an exercise.
echo ada > names.txt
class --students names.txt --nodes 1 course
mkdir course/exercises
cp -R examples/exercises/twice course/exercises
class start course
