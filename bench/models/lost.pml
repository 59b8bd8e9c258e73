/* Each of N cores loads the counter, adds 1 and stores it. A step is one that touches memory. */
byte count;

active [N] proctype core() {
    byte eax;
    eax = count;
    count = eax + 1
}
