/*
 * covremuj.hpp: the heap of covremuj.h for C++17, header only. Nothing of this file is proved; it calls what is.
 *
 *     cvm::heap heap({16, 1024, 2, 1, 2});         regions, words of each, mutators, helpers, reserve
 *     cvm::mutator me = heap.mutator();             one thread's way to the heap
 *     cvm::root list = me.null();
 *     for (std::uint64_t i = 0; i < 10; i++) {
 *         cvm::root node = me.make(1, 1);           an object of one reference and one number
 *         node.write(0, i);
 *         node.set(0, list);
 *         list = node;
 *     }
 *
 * A heap has a thread for each helper and the control from its construction on, and its destructor waits until all of
 * its mutators have ended: each mutator is to be destroyed before its heap, or given back to it, and each root before
 * that. A mutator and its roots are used by one thread at a time, as covremuj.h says of seats. A call throws cvm::refused
 * where the library refuses it, cvm::full where the heap has no room, and cvm::bad where the root is null or its
 * object has no such field or number; then nothing has changed.
 */
#ifndef COVREMUJ_HPP
#define COVREMUJ_HPP

#include "covremuj.h"

#include <array>
#include <cstdint>
#include <memory>
#include <optional>
#include <stdexcept>
#include <string>
#include <utility>

namespace cvm {

/* What went wrong, with the status of covremuj.h. */
class error : public std::runtime_error {
public:
    explicit error(cvm_status status) : std::runtime_error(std::string("covremuj: ") + cvm_status_name(status)), status_(status) {}
    cvm_status status() const noexcept { return status_; }

private:
    cvm_status status_;
};

/* The library refused a call: status() says why. */
struct refused : error {
    using error::error;
};

/* The heap has no room for an object, not after a full collection either. */
struct full : error {
    full() : error(CVM_FULL) {}
};

/* The root is null, or its object has no such field or number. */
struct bad : error {
    bad() : error(CVM_BAD) {}
};

/* All 16 roots of the mutator are in use. */
struct no_root : std::runtime_error {
    no_root() : std::runtime_error("covremuj: all 16 roots are in use") {}
};

/* Sizes of a heap, as in covremuj.h, in its order. */
using config = cvm_config;

/* The name of an object: no two objects of a heap have one, until it is renewed. The hub's is 0.1. */
struct name {
    std::uint64_t thread;
    std::uint64_t count;
    friend bool operator==(const name &a, const name &b) { return a.thread == b.thread && a.count == b.count; }
    friend bool operator!=(const name &a, const name &b) { return !(a == b); }
};

namespace detail {

/* The seat of a mutator, on a cache line of its own, and which of its roots are in use. */
struct alignas(64) desk {
    cvm_seat seat{};
    std::uint32_t used = 1;

    desk() = default;
    desk(const desk &) = delete;
    desk &operator=(const desk &) = delete;
    ~desk() {
        cvm_finish(&seat);
        cvm_close(&seat);
    }

    std::uint32_t take() {
        for (std::uint32_t i = 0; i < CVM_ROOTS; i++) {
            if ((used >> i & 1) == 0) {
                used |= UINT32_C(1) << i;
                return i;
            }
        }
        throw no_root();
    }

    cvm_status call(cvm_op op, std::uint32_t a, std::uint32_t b = 0, std::uint32_t c = 0, std::uint32_t d = 0, std::uint64_t value = 0) {
        return call(op, a, b, c, d, value, answer);
    }

    cvm_status call(cvm_op op, std::uint32_t a, std::uint32_t b, std::uint32_t c, std::uint32_t d, std::uint64_t value, cvm_value &into) {
        cvm_status said = cvm_call(&seat, op, a, b, c, d, value, &into);
        if (said == CVM_BAD) {
            throw bad();
        }
        if (said == CVM_FULL) {
            throw full();
        }
        if (!cvm_is_reply(said)) {
            throw refused(said);
        }
        return said;
    }

    cvm_value answer{};
};

} /* namespace detail */

/*
 * One of a mutator's 16 roots, null or naming an object, for as long as this value lives. Copies are further roots
 * that name the same.
 */
class root {
public:
    root(root &&other) noexcept : desk_(std::exchange(other.desk_, nullptr)), index_(other.index_) {}
    root(const root &other) : desk_(other.desk_), index_(other.desk_->take()) { desk_->call(CVM_COPY, index_, other.index_); }

    ~root() {
        if (desk_ != nullptr && index_ != 0) {
            cvm_drop(&desk_->seat, index_);
            desk_->used &= ~(UINT32_C(1) << index_);
        }
    }

    /* This root names what the other one does. */
    root &operator=(const root &other) {
        desk_->call(CVM_COPY, index_, other.index_);
        return *this;
    }

    root &operator=(root &&other) {
        desk_->call(CVM_COPY, index_, other.index_);
        return *this;
    }

    /* This root becomes null. */
    void clear() { desk_->call(CVM_DROP, index_); }

    /* The reference in a field: a root that names it, or none where it is null. */
    std::optional<root> get(std::uint32_t field) const {
        root found(*desk_);
        if (desk_->call(CVM_GET, found.index_, index_, field) == CVM_NULL) {
            return std::nullopt;
        }
        return found;
    }

    /* This root becomes what is in the field of another one; whether that is an object. */
    bool load(const root &from, std::uint32_t field) { return desk_->call(CVM_GET, index_, from.index_, field) == CVM_REF; }

    /* The field becomes what the other root names. */
    void set(std::uint32_t field, const root &value) { desk_->call(CVM_SET, index_, field, value.index_); }

    /* If the field is `expect` it becomes `value`, in one step; whether it was. */
    bool compare_exchange(std::uint32_t field, const root &expect, const root &value) {
        return desk_->call(CVM_CAS, index_, field, expect.index_, value.index_) == CVM_YES;
    }

    /* The field becomes `value`, and the answer is what it was, in one step. */
    std::optional<root> exchange(std::uint32_t field, const root &value) {
        root found(*desk_);
        if (desk_->call(CVM_XCHG, found.index_, index_, field, value.index_) == CVM_NULL) {
            return std::nullopt;
        }
        return found;
    }

    /* A number of the object. */
    std::uint64_t read(std::uint32_t index) const {
        desk_->call(CVM_RD, index_, index);
        return desk_->answer.number;
    }

    /* A number of the object becomes this one. */
    void write(std::uint32_t index, std::uint64_t number) { desk_->call(CVM_WR, index_, index, 0, 0, number); }

    /* Holds the object in an empty pin slot, 0 to 3: the address, in words, at which it stays until no slot holds it. */
    std::uint64_t pin(std::uint32_t slot) const {
        desk_->call(CVM_PIN, slot, index_);
        return desk_->answer.number;
    }

    /* Whether both name one object, or both are null. */
    friend bool same(const root &a, const root &b) { return a.desk_->call(CVM_SAME, a.index_, b.index_) == CVM_YES; }

    /* Its number, 0 to 15. */
    std::uint32_t index() const noexcept { return index_; }

private:
    friend class mutator;
    explicit root(detail::desk &desk) : desk_(&desk), index_(desk.take()) {}
    root(detail::desk &desk, std::uint32_t index) : desk_(&desk), index_(index) {}

    detail::desk *desk_;
    std::uint32_t index_;
};

/* A mutator of a heap. It ends, and gives its seat up, when it is destroyed. */
class mutator {
public:
    /* The hub, which is in root 0. Its fields are what the mutators of a heap share at first. */
    root hub() { return root(*desk_, 0); }

    /* A root that is null. */
    root null() {
        root made(*desk_);
        made.clear();
        return made;
    }

    /* A new object of so many references, all null, and numbers, all 0. Each 0 to 16. It may wait for a collection. */
    root make(std::uint32_t references, std::uint32_t numbers) {
        root made(*desk_);
        desk_->call(CVM_NEW, made.index_, references, numbers);
        return made;
    }

    /* The same, with the name of the object. */
    std::pair<root, name> make_named(std::uint32_t references, std::uint32_t numbers) {
        root made = make(references, numbers);
        return {std::move(made), name{desk_->answer.thread, desk_->answer.count}};
    }

    /* Asks for a collection, and does not wait for it. */
    void collect() { desk_->call(CVM_GC, 0); }

    /* Empties a pin slot, 0 to 3, that holds an object. */
    void unpin(std::uint32_t slot) { desk_->call(CVM_UNPIN, slot); }

    /* Its seat, for the calls of covremuj.h. */
    cvm_seat *seat() noexcept { return &desk_->seat; }

private:
    friend class heap;
    explicit mutator(cvm_seat *from) : desk_(std::make_unique<detail::desk>()) { cvm_move(&desk_->seat, from); }

    std::unique_ptr<detail::desk> desk_;
};

/* A heap, with a thread for each helper and the control. */
class heap {
public:
    explicit heap(const config &sizes) : sizes_(sizes) {
        check(cvm_open(&sizes_, seats_.data(), cvm_seat_count(&sizes_)));
        cvm_status said = cvm_start_workers(seats_.data() + sizes_.mutators, sizes_.helpers + 1, &workers_);
        if (said != CVM_DONE) {
            close();
            throw refused(said);
        }
    }

    heap(const heap &) = delete;
    heap &operator=(const heap &) = delete;

    /* Ends the mutators that nobody has, and waits until the others have ended. */
    ~heap() {
        finish();
        close();
    }

    /*
     * A mutator that nobody has, of as many as the sizes say. CVM_NOT_OPEN is thrown where all are taken. By one thread
     * at a time.
     */
    cvm::mutator mutator() {
        for (std::size_t i = 0; i < sizes_.mutators; i++) {
            if (cvm_is_open(&seats_[i])) {
                return cvm::mutator(&seats_[i]);
            }
        }
        throw refused(CVM_NOT_OPEN);
    }

    /* Takes a mutator of this heap back, between two calls and without a root, but for the hub's. By one thread at a time. */
    void give_back(cvm::mutator &&from) {
        cvm_state state{};
        check(cvm_look(from.seat(), &state));
        cvm_move(&seats_[state.number - 1], from.seat());
    }

    /*
     * Renews the heap, all of whose mutators were given back: what the hub leads to goes on with new names, and each
     * mutator has as many objects to make as are not left of it. True where it did; false where it goes on with the names
     * that it had: an object is pinned, the objects do not fit, or memory was refused, as covremuj.h says of cvm_renew.
     * CVM_NOT_OPEN is thrown where a mutator is missing, and then nothing has changed; CVM_LOST where nothing is left of the heap, or CVM_NO_MEMORY or
     * CVM_NO_THREAD where it is at its end, and can only be destroyed.
     */
    bool renew() {
        for (std::size_t i = 0; i < sizes_.mutators; i++) {
            if (!cvm_is_open(&seats_[i])) {
                throw refused(CVM_NOT_OPEN);
            }
        }
        finish();
        cvm_status said = cvm_renew(seats_.data(), cvm_seat_count(&sizes_));
        if (said == CVM_LOST || cvm_is_refusal(said)) {
            throw refused(said);
        }
        check(cvm_start_workers(seats_.data() + sizes_.mutators, sizes_.helpers + 1, &workers_));
        return said == CVM_DONE;
    }

private:
    /* Ends the mutators that are here, and waits until all have ended. */
    void finish() {
        for (std::size_t i = 0; i < sizes_.mutators; i++) {
            cvm_finish(&seats_[i]);
        }
        if (workers_ != nullptr) {
            cvm_join_workers(std::exchange(workers_, nullptr));
        }
    }

    static void check(cvm_status said) {
        if (said != CVM_DONE) {
            throw refused(said);
        }
    }

    void close() noexcept {
        for (cvm_seat &seat : seats_) {
            cvm_close(&seat);
        }
    }

    cvm_config sizes_;
    std::array<cvm_seat, CVM_MOST_SEATS> seats_{};
    cvm_workers *workers_ = nullptr;
};

} /* namespace cvm */

#endif
