package xarm.tests;

/** Some tests, which a class without arguments runs. */
interface Suite {
    void run(Tests tests) throws Exception;
}
