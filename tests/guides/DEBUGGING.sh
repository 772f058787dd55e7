# ada has a node with link 0 at port 0, and a host at port 1; ben has two nodes, with the ports 0 to 3, and a host at port 4.
echo ada > names.txt
class --students names.txt --nodes 1 course
class start course
echo ben > names.txt
class --students names.txt --nodes 2 --limit 10000 pair
class start pair
