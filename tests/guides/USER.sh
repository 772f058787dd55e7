# The class of a teacher in which ada is: a node with link 0 at port 0, and a host at port 1.
echo ada > names.txt
class --students names.txt --nodes 1 course
class start course
