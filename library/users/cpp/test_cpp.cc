// The C++ wrapper: lists by several threads, a counter by compare-exchange, roots that come and go, and what is thrown; and the pauses of a
// heap whose seats the program has itself, by the functions of C.
#include <covremuj.hpp>

#include "../common/pauses.h"

#include <cstdio>
#include <cstdlib>
#include <thread>
#include <vector>

namespace {

void must(bool is_true, const char *what) {
    if (!is_true) {
        std::fprintf(stderr, "test_cpp: not true: %s\n", what);
        std::exit(1);
    }
}

std::uint64_t sum_of_list(cvm::mutator &me, std::uint64_t length) {
    cvm::root list = me.null();
    for (std::uint64_t i = 1; i <= length; i++) {
        cvm::root node = me.make(1, 1);
        node.write(0, i);
        node.set(0, list);
        list = node;
    }
    std::uint64_t sum = 0;
    for (std::uint64_t i = 0; i < length; i++) {
        sum += list.read(0);
        list.load(list, 0);
    }
    return sum;
}

void lists() {
    cvm::heap heap({16, 256, 3, 1, 2});
    std::vector<std::thread> threads;
    for (int i = 0; i < 3; i++) {
        threads.emplace_back([me = heap.mutator()]() mutable {
            for (int time = 0; time < 20; time++) {
                must(sum_of_list(me, 100) == 5050, "the sum of a list");
            }
        });
    }
    for (std::thread &thread : threads) {
        thread.join();
    }
}

// Adds 1 to the number of the object in field 0 of the hub, so many times, each time by another object.
void count(cvm::mutator &me, int times) {
    cvm::root hub = me.hub();
    for (int i = 0; i < times;) {
        cvm::root old = *hub.get(0);
        cvm::root next = me.make(0, 1);
        next.write(0, old.read(0) + 1);
        i += hub.compare_exchange(0, old, next);
    }
}

void counter() {
    cvm::heap heap({12, 64, 4, 0, 1});
    cvm::mutator first = heap.mutator();
    first.hub().set(0, first.make(0, 1));
    std::vector<std::thread> threads;
    for (int i = 0; i < 3; i++) {
        threads.emplace_back([me = heap.mutator()]() mutable { count(me, 500); });
    }
    count(first, 500);
    for (std::thread &thread : threads) {
        thread.join();
    }
    must(first.hub().get(0)->read(0) == 2000, "the counter");
}

template <typename E, typename F> bool throws(F body) {
    try {
        body();
    } catch (const E &) {
        return true;
    }
    return false;
}

void refusals() {
    must(throws<cvm::refused>([] { cvm::heap heap({3, 64, 1, 0, 0}); }), "three regions are refused");
    cvm::heap heap({4, 64, 1, 0, 0});
    cvm::mutator me = heap.mutator();
    must(throws<cvm::refused>([&] { heap.mutator(); }), "there is one mutator");
    cvm::root object = me.make(2, 1), null = me.null();
    must(throws<cvm::bad>([&] { object.get(2); }), "it has two references");
    must(throws<cvm::bad>([&] { null.read(0); }), "null has no number");
    must(throws<cvm::refused>([&] { me.make(17, 0); }), "17 references are too many");
    must(!object.get(1).has_value() && same(null, me.null()), "both are null");
    std::vector<cvm::root> roots;
    must(throws<cvm::no_root>([&] {
             for (;;) {
                 roots.push_back(me.null());
             }
         }),
         "there are 16 roots");
    must(roots.size() == CVM_ROOTS - 3, "13 roots were free");
    roots.clear();
    cvm::root kept = me.null();
    must(throws<cvm::full>([&] {
             for (;;) {
                 cvm::root more = me.make(16, 16);
                 more.set(0, kept);
                 kept = more;
             }
         }),
         "the heap is full at last");
    object.set(1, object);
    must(same(*object.exchange(1, null), object) && !object.get(1), "an exchange answers what was there");
}

// A counter in the hub is renewed again and again, and names are counted from 1 each time; a pinned object is left where it is.
void renewal() {
    cvm::heap heap({8, 64, 2, 1, 1});
    for (std::uint64_t i = 0; i < 10; i++) {
        {
            cvm::mutator first = heap.mutator(), second = heap.mutator();
            must(throws<cvm::refused>([&] { heap.renew(); }), "the mutators are taken");
            for (int j = 0; j < 30; j++) {
                second.make(2, 2);
            }
            {
                auto made = first.make_named(0, 1);
                must(made.second == cvm::name{1, i == 0 ? 1u : 2u}, "the name behind that which is left");
                made.first.write(0, i);
                first.hub().set(0, made.first);
                if (i == 5) {
                    made.first.pin(0);
                }
            }
            heap.give_back(std::move(second));
            heap.give_back(std::move(first));
        }
        must(heap.renew() == (i != 5), "the heap is renewed where nothing is pinned");
        cvm::mutator first = heap.mutator();
        must(first.hub().get(0)->read(0) == i, "the number of the counter");
        if (i == 5) {
            first.unpin(0);
            heap.give_back(std::move(first));
            must(heap.renew(), "the heap is renewed once nothing is pinned");
        } else {
            heap.give_back(std::move(first));
        }
    }
}

// The seats of a heap of one mutator and the control, whose steps are made only here.
struct quiet {
    std::array<cvm_seat, 2> seats{};
    pauses seen = pauses_none();

    // Of nine objects that fill a region one is kept.
    explicit quiet(std::uint32_t regions_used) {
        const cvm_config sizes{8, 64, 1, 0, 0};
        must(cvm_open(&sizes, seats.data(), 2) == CVM_DONE, "a heap is opened");
        for (std::uint32_t i = 0; i < 9 * regions_used; i++) {
            must(cvm_new(&seats[0], 1, 2, 2) == CVM_REF, "there is room");
            must(i % 9 != 0 || cvm_set(&seats[0], 0, i / 9, 1) == CVM_OK, "the hub has the field");
        }
    }
    quiet(const quiet &) = delete;
    quiet &operator=(const quiet &) = delete;

    ~quiet() {
        for (cvm_seat &seat : seats) {
            cvm_close(&seat);
        }
    }

    // Gives the control steps until it stands outside of a pause, in this phase.
    void work_until(cvm_phase phase) {
        do {
            must(!cvm_is_refusal(pauses_work(&seen, &seats[1], 1)), "the control makes a step");
        } while (seen.phase != phase || std::string(seen.place) != "I0");
    }

    // Makes objects until one waits for room.
    void make_until_it_waits() {
        while (cvm_try_new(&seats[0], 1, 16, 16) == CVM_REF) {
        }
    }
};

void pauses_by_kind() {
    quiet whole(3), cut(3), full(3), marked(0);
    cvm_gc(&whole.seats[0]);
    whole.work_until(CVM_UPDATING);
    whole.work_until(CVM_NO_CYCLE);
    must(pauses_all(&whole.seen) == 4 && whole.seen.many[PAUSE_WHOLE] == 1, "a cycle goes through its phases");
    cvm_gc(&cut.seats[0]);
    cut.work_until(CVM_EVACUATING);
    cut.make_until_it_waits();
    cut.work_until(CVM_NO_CYCLE);
    must(pauses_all(&cut.seen) == 3 && cut.seen.many[PAUSE_CUT] == 1, "a cycle is cut short");
    full.make_until_it_waits();
    while (pauses_all(&full.seen) == 0) {
        full.work_until(CVM_NO_CYCLE);
    }
    must(pauses_all(&full.seen) == 1 && full.seen.many[PAUSE_FULL] == 1, "the heap is collected in full");
    cvm_gc(&marked.seats[0]);
    marked.work_until(CVM_MARKING);
    marked.work_until(CVM_NO_CYCLE);
    must(pauses_all(&marked.seen) == 2 && marked.seen.many[PAUSE_MARKED] == 1, "a cycle has nothing to evacuate");
    for (const quiet *heap : {&whole, &cut, &full, &marked}) {
        std::printf("C++: %s\n", pauses_told(&heap->seen).text);
    }
}

} // namespace

int main() {
    lists();
    counter();
    refusals();
    renewal();
    pauses_by_kind();
    std::puts("C++: lists, a counter, each refusal, renewals, and each kind of pause");
}
