/**
 * Rings, broadcast buffers and counters for the threads of one process. The classes are modelled on Agrona's classes.
 * In the code of C, C++, Rust and Python a broadcast buffer is called a board.
 *
 * <p>The classes call a library whose C interface is proved. The classes themselves are tested and not proved. The
 * comments of the classes have the rules for threads. For example, only one thread may read a ring.
 */
package felter;
