/*
 * A frame loop: it takes what has come in since the frame before, feeds it to the patch, and sends on what the patch
 * sends. Here a second thread plays the part of the outside: it delivers the slices of a recorded show, some of them
 * late, and what the loop sends is printed, and once a second how much came and was sent.
 */
#define _POSIX_C_SOURCE 200809L /* for clock_nanosleep */
#include "counts.h"
#include "deliveries.h"
#include "faults.h"
#include "opening.h"
#include "totals.h"

#include <errno.h>
#include <pthread.h>
#include <stdio.h>
#include <stdlib.h>
#include <string.h>
#include <time.h>

static const char help[] =
    "frame_loop SHOW [--seed N] [--frames-per-second N | --fast]\n"
    "\n"
    "Plays a show file and prints what is sent on in each frame, in the words of its lanes, and before it what is\n"
    "chosen in the input.\n"
    "\n"
    "Behind every second it tells how many cues and levels arrived in it, in how many slices, and how many were sent.\n"
    "A second in which nothing arrived is told too, and one in which no slice was fed: so it is seen whether the\n"
    "stream is alive. At the end it tells how many arrived and were sent, and how many in all, by the totals of the\n"
    "patch: these go on from those that it has at the start. Crossings and choices do not count.\n"
    "\n"
    "  --seed N               slices are late as the number N says, 0 to 18446744073709551615; with 0, and without\n"
    "                         this word, none is late\n"
    "  --frames-per-second N  1 to 1000; 60 without this word. So many frames are a second\n"
    "  --fast                 as fast as can be, in place of a number of frames a second: the seed alone decides how\n"
    "                         the stream is cut; 60 frames are a second\n"
    "\n"
    "At 60 frames a second, or another number, slices are delivered half a frame ahead. A thread that is held up for\n"
    "longer cuts the stream in another way than the seed says. The same is sent all the same, and as much in all; a\n"
    "late slice can count in the next second.\n"
    "\n"
    "A slice that is refused, and a last slice in which the file ends, are told on the error stream and left out; the\n"
    "show goes on. Status: 0 the show was played, 1 its patch is refused, 2 the words or the file cannot be used, or\n"
    "what is sent cannot be written.\n";

/*
 * Where the two threads meet: the slices that wait for the next frame, as one. Nobody prints, sleeps or feeds while
 * holding the lock; it is held for one call of the library at most, so a slow logger never keeps the frame waiting.
 * Where threads have priorities of their own, give the lock PTHREAD_PRIO_INHERIT, so that a thread between the two does
 * not either. Should it happen all the same, the slices wait as one, and the show is the same.
 */
struct mailbox {
    pthread_mutex_t lock;
    pthread_cond_t changed; /* one of the counts below has; only lock step waits for it */
    struct type begins;     /* what is left of the input type where the waiting slices begin */
    struct joined waiting;
    size_t delivered; /* the last frame for which everything has been delivered */
    size_t taken;     /* the last frame that has been taken */
    bool over;        /* nothing will be delivered any more */
};

/* How the two threads keep time. */
struct pace {
    bool lock_step;
    size_t frames_a_second; /* in lock step they only say which frames are a second of the show */
    long nanoseconds;       /* between frames, unless in lock step */
};

/*
 * The producer reads the show, the deliveries and the names, and until its thread has ended has `delivered` and
 * `refused` for itself; the patch and the lanes of the opened show are the frame loop's.
 */
struct player {
    struct opened_show *opened;
    const size_t *deliveries; /* for each recorded slice the frame */
    struct pace pace;
    struct timespec start; /* of the show, by the clock that both threads go by */
    struct mailbox mailbox;
    struct lanes delivered; /* the input, behind the last slice that was delivered */
    size_t refused;         /* slices, on delivery */
};

static void mailbox_open(struct mailbox *mailbox, struct file input_type)
{
    *mailbox = (struct mailbox){0};
    memcpy(mailbox->begins.bytes, input_type.bytes, input_type.length);
    mailbox->begins.length = input_type.length;
    if (pthread_mutex_init(&mailbox->lock, NULL) != 0 || pthread_cond_init(&mailbox->changed, NULL) != 0) {
        stop("there is no lock for the mailbox");
    }
}

static void mailbox_close(struct mailbox *mailbox)
{
    pthread_cond_destroy(&mailbox->changed);
    pthread_mutex_destroy(&mailbox->lock);
}

/* Leaves a slice in the mailbox, if it is one that the feed will accept; otherwise the answer is its number. */
static uint32_t mailbox_deliver(struct mailbox *mailbox, struct file slice)
{
    pthread_mutex_lock(&mailbox->lock);
    uint32_t number = joined_add(&mailbox->waiting, type_file(&mailbox->begins), slice);
    pthread_mutex_unlock(&mailbox->lock);
    return number;
}

/* Says that everything for a frame has been delivered. */
static void mailbox_finish_frame(struct mailbox *mailbox, size_t frame, bool over)
{
    pthread_mutex_lock(&mailbox->lock);
    mailbox->delivered = frame;
    mailbox->over = over;
    pthread_cond_broadcast(&mailbox->changed);
    pthread_mutex_unlock(&mailbox->lock);
}

/* In lock step each side waits for the other: a frame is delivered when the one before is taken, then it is taken. */
static void mailbox_await_taken(struct mailbox *mailbox, size_t frame)
{
    pthread_mutex_lock(&mailbox->lock);
    while (mailbox->taken < frame) {
        pthread_cond_wait(&mailbox->changed, &mailbox->lock);
    }
    pthread_mutex_unlock(&mailbox->lock);
}

static void mailbox_await_delivered(struct mailbox *mailbox, size_t frame)
{
    pthread_mutex_lock(&mailbox->lock);
    while (mailbox->delivered < frame && !mailbox->over) {
        pthread_cond_wait(&mailbox->changed, &mailbox->lock);
    }
    pthread_mutex_unlock(&mailbox->lock);
}

/* The slices that wait were admitted, so this is accepted; what they leave is where the next ones begin. */
static void move_on(struct type *begins, struct file slice)
{
    struct type left;
    wosthile_written written =
        wosthile_left(begins->bytes, begins->length, slice.bytes, slice.length, left.bytes, sizeof left.bytes);
    if (written.number != WOSTHILE_ACCEPTED) {
        stop("a slice that was admitted is refused");
    }
    left.length = written.written;
    *begins = left;
}

/* Takes what waits, which may be nothing. False if the frames that were delivered are over, and nothing waits. */
static bool mailbox_take(struct mailbox *mailbox, size_t frame, struct joined *taken)
{
    pthread_mutex_lock(&mailbox->lock);
    *taken = mailbox->waiting;
    bool more = taken->count > 0 || !mailbox->over || frame <= mailbox->delivered;
    if (taken->count > 0) {
        move_on(&mailbox->begins, joined_file(taken));
        mailbox->waiting.count = 0;
    }
    mailbox->taken = frame;
    pthread_cond_broadcast(&mailbox->changed);
    pthread_mutex_unlock(&mailbox->lock);
    return more;
}

static struct timespec later(struct timespec time, long nanoseconds)
{
    enum { SECOND = 1000000000 };
    long sum = time.tv_nsec + nanoseconds;
    return (struct timespec){time.tv_sec + sum / SECOND, sum % SECOND};
}

/* Sleeps until the next frame is due. The times are absolute, so a late frame does not make the later ones late. */
static void await_frame(struct timespec *due, struct pace pace)
{
    *due = later(*due, pace.nanoseconds);
    while (clock_nanosleep(CLOCK_MONOTONIC, TIMER_ABSTIME, due, NULL) == EINTR) {
    }
}

/* Moves a side on; the slice is one of what the slices before it leave, since it was delivered, or sent. */
static void follow(struct lanes *side, struct file slice, struct lane_events *events)
{
    if (lanes_follow(side, slice, events) != WOSTHILE_ACCEPTED) {
        stop("a slice that was delivered or sent is not one of what the slices before it leave");
    }
}

/* Delivers a slice, and tells if it is refused; then it is as if it had not come. */
static void deliver(struct player *player, size_t frame, size_t index)
{
    struct file slice = player->opened->show.slices[index];
    struct lane_events events;
    uint32_t number = mailbox_deliver(&player->mailbox, slice);
    if (number == WOSTHILE_ACCEPTED) {
        follow(&player->delivered, slice, &events);
        return;
    }
    char place[MESSAGE_BYTES];
    slice_fault_text(place, sizeof place, &player->delivered, slice, &player->opened->names.in, &player->opened->show);
    tell("frame %zu: recorded slice %zu is refused with %u, and left out: %s\n    %s", frame, index + 1, number,
         wosthile_sentence(number), place);
    player->refused++;
}

/* The outside: delivers each slice in its frame. */
static void *produce(void *argument)
{
    struct player *player = argument;
    size_t next = 0, count = player->opened->show.count;
    struct timespec due = player->start;
    for (size_t frame = 1; next < count; frame++) {
        if (player->pace.lock_step) {
            mailbox_await_taken(&player->mailbox, frame - 1);
        } else {
            await_frame(&due, player->pace);
        }
        for (; next < count && player->deliveries[next] <= frame; next++) {
            deliver(player, frame, next);
        }
        mailbox_finish_frame(&player->mailbox, frame, next == count);
    }
    return NULL;
}

static size_t count_choices(const struct lane_events *events)
{
    size_t choices = 0;
    for (size_t index = 0; index < events->count; index++) {
        choices += is_choice(&events->list[index]);
    }
    return choices;
}

/* The choices that came in; whoever made them wants to see that they have come. */
static void print_choices(const struct lane_events *events, const struct side_names *names)
{
    for (size_t index = 0; index < events->count; index++) {
        if (is_choice(&events->list[index])) {
            char words[EVENT_TEXT_BYTES];
            lane_event_text(words, &events->list[index], names);
            printf("    came in, %s\n", words);
        }
    }
}

/*
 * Sends on what a frame gave: here it is printed in the words of the lanes; a box sends it to the lamps. A frame that
 * gave nothing new, and in which nothing was chosen, prints nothing.
 */
static void send_on(struct opened_show *opened, size_t frame, const struct joined *taken, struct file output)
{
    struct lane_events come, sent;
    follow(&opened->in, joined_file(taken), &come);
    follow(&opened->out, output, &sent);
    if (sent.count == 0 && count_choices(&come) == 0) {
        return;
    }
    printf("frame %zu", frame);
    if (taken->count > 1) {
        printf(", %zu slices as one", taken->count);
    }
    printf("\n");
    print_choices(&come, &opened->names.in);
    for (size_t index = 0; index < sent.count; index++) {
        lane_event_print(&sent.list[index], &opened->names.out);
    }
    program_flush();
}

/* What was fed in a second; cues and levels as the library counts them. */
struct second {
    size_t frames, slices;
    struct counts counts;
};

struct tally {
    size_t frames, feeds, refused;
    struct counts counts;
    struct second second; /* the one that runs */
};

/* Tells that a feed is refused; if it is for the totals, with what they are and would be. */
static void tell_refused_feed(const struct opened_show *opened, size_t frame, const struct joined *taken,
                              uint32_t number)
{
    char totals[MESSAGE_BYTES] = "";
    if (number == WOSTHILE_FAULT_TOTAL_TOO_LARGE) {
        totals_fault_text(totals, sizeof totals, patch_file(&opened->patch), joined_file(taken));
    }
    tell("frame %zu: the feed is refused with %u, and the patch stays: %s%s%s", frame, number,
         wosthile_sentence(number), totals[0] == '\0' ? "" : "\n    ", totals);
}

/* Feeds what was taken in a frame. A refused feed is as if the slice had not come: the patch stays. */
static void feed_frame(struct opened_show *opened, size_t frame, const struct joined *taken, struct tally *tally)
{
    uint8_t output[WOSTHILE_SLICE_FILE_MAX];
    wosthile_fed fed = patch_feed(&opened->patch, joined_file(taken), output);
    if (fed.number != WOSTHILE_ACCEPTED) {
        tell_refused_feed(opened, frame, taken, fed.number);
        tally->refused++;
        return;
    }
    tally->feeds++;
    tally->second.slices += taken->count;
    counts_add(&tally->second.counts, &fed);
    counts_add(&tally->counts, &fed);
    send_on(opened, frame, taken, (struct file){output, fed.output});
}

/* None is a word, so that it is seen among the numbers. */
static void print_count(const char *before, size_t count, const char *behind)
{
    if (count == 0) {
        printf("%snothing %s", before, behind);
    } else {
        printf("%s%zu %s", before, count, behind);
    }
}

/*
 * Tells how much came and was sent in the second that ends, and begins the next. A second in which nothing arrived is
 * told like any other: whoever looks whether a lane is alive has to see that too. Slices that bring nothing say that
 * the outside is there; without any, it may not be. All this is printed between the frames, by the thread that prints
 * these.
 */
static void end_second(struct tally *tally, size_t frames_a_second)
{
    const struct second *second = &tally->second;
    printf("second %zu", (tally->frames - 1) / frames_a_second + 1);
    if (second->frames < frames_a_second) {
        printf(", only %zu %s", second->frames, plural(second->frames, "frame", "frames"));
    }
    if (second->slices == 0) {
        printf(": no slice was fed\n");
    } else {
        print_count(": ", second->counts.arrived, "arrived");
        printf(" in %zu %s", second->slices, plural(second->slices, "slice", "slices"));
        print_count(", ", second->counts.sent, "sent\n");
    }
    tally->second = (struct second){0};
    program_flush();
}

/*
 * The frame loop. Whatever is fed here was admitted on delivery, so a feed is refused only if a total of the patch
 * would be too large, with 31. Such a slice is as one that was lost on its way: the later ones, which take it for come,
 * are refused too. In a loop that does not try its slices before, any feed can be refused, and the show goes on.
 */
static struct tally draw_frames(struct player *player)
{
    struct tally tally = {0};
    struct joined taken;
    size_t frames_a_second = player->pace.frames_a_second;
    struct timespec due = later(player->start, player->pace.nanoseconds / 2);
    for (size_t frame = 1;; frame++) {
        if (player->pace.lock_step) {
            mailbox_await_delivered(&player->mailbox, frame);
        } else {
            await_frame(&due, player->pace);
        }
        if (!mailbox_take(&player->mailbox, frame, &taken)) {
            break;
        }
        tally.frames++;
        tally.second.frames++;
        if (taken.count > 0) {
            feed_frame(player->opened, frame, &taken, &tally);
        }
        if (tally.second.frames == frames_a_second) {
            end_second(&tally, frames_a_second);
        }
    }
    if (tally.second.frames > 0) {
        end_second(&tally, frames_a_second);
    }
    return tally;
}

/* The refusals were told on the error stream, so what to look at is told there too. */
static void print_end(const struct opened_show *opened, struct tally tally, size_t refused)
{
    size_t slices = opened->show.count;
    printf("The show is over: %zu %s, %zu %s, %zu %s, %zu refused.\n", tally.frames,
           plural(tally.frames, "frame", "frames"), slices, plural(slices, "slice", "slices"), tally.feeds,
           plural(tally.feeds, "feed", "feeds"), refused);
    counts_print("Cues and levels: ", &tally.counts, ".\n");
    totals_print(patch_file(&opened->patch));
    lanes_print_owed(&opened->in, &opened->names.in);
    program_flush();
    if (refused > 1) {
        tell("%s", first_refusal_first);
    }
}

/* Plays an opened show: the producer in a thread of its own, the frame loop in this one. */
static void play(struct player *player)
{
    struct opened_show *opened = player->opened;
    pthread_t producer;
    mailbox_open(&player->mailbox, patch_input_type(&opened->patch));
    player->mailbox.over = opened->show.count == 0;
    clock_gettime(CLOCK_MONOTONIC, &player->start);
    if (pthread_create(&producer, NULL, produce, player) != 0) {
        stop("there is no thread for the producer");
    }
    struct tally tally = draw_frames(player);
    pthread_join(producer, NULL);
    mailbox_close(&player->mailbox);
    print_end(opened, tally, player->refused + tally.refused);
}

/* Plays an opened show, its slices late as the seed says. */
static void play_late(struct opened_show *opened, uint64_t seed, struct pace pace)
{
    size_t *deliveries = memory(opened->show.count + 1, sizeof *deliveries);
    show_deliveries(seed, opened->show.count, deliveries);
    struct player player = {.opened = opened, .deliveries = deliveries, .pace = pace, .delivered = opened->in};
    play(&player);
    free(deliveries);
}

struct words {
    const char *path;
    uint64_t seed, frames_per_second; /* 0 if they are not among the words */
    bool fast;
};

/* The number behind a word; the program stops if there is none, or if it is not in the range. */
static uint64_t number_behind(int count, char **list, int *index, uint64_t least, uint64_t most)
{
    if (*index + 1 == count) {
        stop_for_words(list[*index]);
    }
    ++*index;
    return number_between(list[*index], least, most);
}

static struct words read_words(int count, char **list)
{
    struct words words = {.path = NULL};
    for (int index = 1; index < count; index++) {
        const char *word = list[index];
        if (strcmp(word, "--fast") == 0) {
            words.fast = true;
        } else if (strcmp(word, "--seed") == 0) {
            words.seed = number_behind(count, list, &index, 0, UINT64_MAX);
        } else if (strcmp(word, "--frames-per-second") == 0) {
            words.frames_per_second = number_behind(count, list, &index, 1, 1000);
        } else if (word[0] != '-' && words.path == NULL) {
            words.path = word;
        } else {
            stop_for_words(word);
        }
        if (words.fast && words.frames_per_second > 0) {
            stop_for_words(word);
        }
    }
    if (words.path == NULL) {
        stop_for_words(NULL);
    }
    return words;
}

static struct pace pace_of(const struct words *words)
{
    size_t frames = words->frames_per_second == 0 ? FRAMES_A_SECOND : words->frames_per_second;
    return (struct pace){words->fast, frames, 1000000000 / (long)frames};
}

int main(int count, char **list)
{
    struct opened_show opened;
    program_begin(help, count, list);
    struct words words = read_words(count, list);
    enum status status = open_show(words.path, &opened);
    if (status == STATUS_DONE) {
        play_late(&opened, words.seed, pace_of(&words));
    }
    close_show(&opened);
    return program_end(status);
}
