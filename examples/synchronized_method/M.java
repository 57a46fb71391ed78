// May main print 1?
class M {
    static int count;

    static synchronized void increment() {
        count++;
    }

    public static void main(String[] args) throws InterruptedException {
        Counter first = new Counter();
        Counter second = new Counter();
        first.start();
        second.start();
        first.join();
        second.join();
        System.out.println(count);
    }
}

class Counter extends Thread {
    public void run() {
        M.increment();
    }
}
