/* The FM-1's peripheral block for C: link target/staticlib/libcapi.a (`tools/build capi`), x86-64 Linux.
 * Written by tools/bindings from the code; change that.
 *
 * Keep a record and the memory that it is lent; hand both to each call and go on with the record that it answers. Whatever bytes the record holds, a call ends with its answer: where it is
 * refused it says why by a number, and record and memory are as they were. The numbers that a call can answer stand behind its sentence. A flag that comes in is a byte, 0 or 1. */

#ifndef FM1_H
#define FM1_H

#include <stdbool.h>
#include <stddef.h>
#include <stdint.h>

#ifdef __cplusplus
extern "C" {
#endif

/* ---- the refusals; 0 is done */
#define FM1_CLOCK 1 /* a new board's rate is outside 1,000,000 to 800,000,000 Hz */
#define FM1_SIZE 2 /* a lent length is not the one named below */
#define FM1_STATE 3 /* the board's record is not whole */
#define FM1_PARAM 4 /* an SPI, USB, deadline or millisecond number is outside its range */
#define FM1_FULL 5 /* 256 entries wait in the script */
#define FM1_COUNT 6 /* a count that the call can raise is 2^62 or more */
#define FM1_TIME 7 /* the clock would pass 2^53 */

/* ---- what is lent */
#define FM1_QUEUE_BYTES 3125 /* the MIDI queue, in bytes */
#define FM1_SCRIPT_WORDS 512 /* the script, in words of 64 bits */
#define FM1_BANK_WORDS 32 /* an interrupt bank, in words of 32 bits */
#define FM1_OUT_BYTES 4352 /* a step's output, in bytes: at least these */
#define FM1_PORT_BYTES 2048 /* the P33 port's registers, in bytes */
#define FM1_NEVER UINT64_MAX /* a deadline that does not come */

/* ---- the port's events */
#define FM1_EVENT_NONE 0
#define FM1_EVENT_WDT 1
#define FM1_EVENT_WDT_FED 2
#define FM1_EVENT_RESET 3

/* ---- records and answers */

typedef struct {
    uint64_t start;
    uint64_t next;
    uint64_t pending;
    uint32_t ctl;
    uint32_t prd;
} fm1_tick_t;

typedef struct {
    uint64_t start;
    uint64_t next;
    uint32_t con;
    uint32_t prd;
    uint32_t cnt0;
    uint32_t pending;
} fm1_tmr_t;

typedef struct {
    uint64_t base;
    uint64_t last_cnt_read;
    uint32_t con;
    uint32_t cnt_streak;
} fm1_t4_t;

typedef struct {
    uint64_t next;
    uint64_t pending;
    uint32_t con;
    uint32_t prd;
} fm1_t5_t;

typedef struct {
    uint64_t next;
    /* halves played, a count that wraps */
    uint64_t halves;
    /* the half playing, 0 or 1 */
    uint64_t half;
    uint32_t con0;
    uint32_t con1;
    uint32_t con3;
    uint32_t pend;
    uint32_t adr;
    uint32_t len;
} fm1_audio_t;

typedef struct {
    /* when SPI1's transfer ends, and its interrupt comes */
    uint64_t spi1_done_at;
    uint64_t spi1_irq_at;
    /* SPI1's time on the wire, all told */
    uint64_t spi1_wire;
    /* when SPI2's interrupt comes */
    uint64_t spi2_next;
    uint32_t spi1_pending;
    uint32_t spi2_pending;
} fm1_spi_t;

typedef struct {
    /* when the queue's first byte has arrived */
    uint64_t next;
    /* when the timeout comes */
    uint64_t ot_next;
    /* bytes lost: to a full queue, or for want of a receiver */
    uint64_t dropped;
    uint32_t con0;
    uint32_t rxsadr;
    uint32_t rxeadr;
    uint32_t rxcnt;
    uint32_t otcnt;
    uint32_t hrxcnt;
    /* bytes received since the last latch */
    uint32_t since;
    /* how far into its ring the DMA writes next */
    uint32_t wr;
    uint32_t rpnd;
    uint32_t otpnd;
    uint32_t tpnd;
    /* the interrupt line, as it was last updated */
    uint32_t irq;
    uint32_t place;
    uint32_t count;
} fm1_uart_t;

/* What software raises (bit b is interrupt 120 + b), and the processor's exception. A flag is 0 or not 0. */
typedef struct {
    uint32_t ilat;
    uint32_t exc_pending;
} fm1_latch_t;

typedef struct {
    uint64_t next;
    uint32_t pending;
    uint32_t state;
} fm1_enc_t;

typedef struct {
    /* bit i is key i */
    uint64_t down;
    /* the velocity of the next presses, 1 to 127 */
    uint64_t vel;
} fm1_keys_t;

typedef struct {
    uint64_t t0[41];
    uint32_t dur[41];
    float from[41];
    float to[41];
} fm1_ramps_t;

typedef struct {
    /* the last change of the LED lines or the latch; when the light was last taken; the time in the present state that is not yet charged */
    uint64_t led_last;
    uint64_t led_since;
    uint64_t led_pend;
    uint32_t pa_out;
    uint32_t ph_out;
    /* port A's direction (1 is an input), pull-ups and drive strength */
    uint32_t pa_dir;
    uint32_t pa_pu;
    uint32_t pa_hd0;
    uint32_t pa_hd;
    uint16_t sr_shift;
    uint16_t sr_latched;
    /* the LED state last credited: the source's `led_key` */
    uint16_t led_lines;
    uint16_t led_latched;
} fm1_pins_t;

typedef struct {
    uint32_t con;
    uint32_t noise;
    uint32_t done;
    /* the interrupt line */
    uint16_t irq;
    uint16_t sample;
} fm1_adc_t;

typedef struct {
    /* the front's time, while any wait */
    uint64_t at;
    uint32_t place;
    uint32_t count;
} fm1_script_t;

/* The clock and the runner's settings. */
typedef struct {
    uint64_t cycles;
    /* nothing timed happens before this cycle */
    uint64_t next_due;
    uint64_t cycle_ticks;
    uint64_t room_cap;
    /* cycles jumped over */
    uint64_t skipped;
    uint64_t in_isr;
    uint32_t hz;
    uint32_t skip_idle;
} fm1_clock_t;

/* Deadlines that the host sets: USB frames with their period, and the watchdog. */
typedef struct {
    uint64_t usb_next;
    uint64_t usb_period;
    uint64_t wdt_at;
} fm1_host_t;

typedef struct {
    fm1_clock_t clock;
    fm1_t4_t t4;
    fm1_t5_t t5;
    fm1_tmr_t tmr[4];
    fm1_tick_t tick;
    fm1_audio_t audio;
    fm1_spi_t spi;
    fm1_uart_t uart;
    fm1_host_t host;
    fm1_script_t script;
    fm1_pins_t pins;
    fm1_enc_t enc[8];
    fm1_keys_t keys;
    fm1_adc_t adc;
    fm1_latch_t latch;
} fm1_chip_t;

typedef struct {
    uint64_t acc[41];
    fm1_ramps_t ramps;
    uint16_t values[16];
} fm1_panel_t;

typedef struct {
    fm1_chip_t chip;
    fm1_panel_t panel;
} fm1_board_t;

typedef struct {
    fm1_board_t board;
    uint32_t refused;
} fm1_done_t;

typedef struct {
    fm1_board_t board;
    uint32_t refused;
    bool due;
} fm1_ticked_t;

typedef struct {
    fm1_board_t board;
    uint64_t lit[41];
    uint64_t span;
    uint32_t refused;
} fm1_lit_t;

typedef struct {
    uint32_t refused;
    bool is;
} fm1_flag_t;

typedef struct {
    uint64_t value;
    uint32_t refused;
} fm1_number_t;

typedef struct {
    fm1_board_t board;
    uint32_t refused;
    bool handled;
} fm1_written_t;

/* A number, or a flag, and the refusal's number (0: done). */
typedef struct {
    uint64_t value;
    uint32_t refused;
    uint32_t is;
} fm1_said_t;

/* A register's value, where `some`. */
typedef struct {
    fm1_board_t board;
    uint32_t refused;
    uint32_t some;
    uint32_t value;
} fm1_reading_t;

/* Where `some`, what DMA moved: an audio half's address and words, or a byte's address and the byte. */
typedef struct {
    uint32_t some;
    uint32_t addr;
    uint32_t value;
} fm1_moved_t;

/* What a step hands out; `written` bytes of the lent output are its records, `applied` of them. */
typedef struct {
    uint64_t written;
    uint32_t applied;
    uint32_t refused;
    fm1_moved_t audio;
    fm1_moved_t uart;
    uint32_t usb_frame;
    uint32_t wdt;
} fm1_due_t;

typedef struct {
    fm1_board_t board;
    fm1_due_t due;
} fm1_advanced_t;

/* Where `some`, the interrupt to take. */
typedef struct {
    uint32_t refused;
    uint32_t some;
    uint32_t source;
    uint32_t priority;
} fm1_chosen_t;

/* The port's record, its event as a number. */
typedef struct {
    uint64_t changed;
    uint32_t con;
    uint32_t dat;
    uint32_t event;
    uint16_t addr;
    uint8_t step;
    uint8_t cmd;
} fm1_port_t;

typedef struct {
    fm1_port_t port;
    fm1_said_t said;
} fm1_port_answered_t;

/* An action as a word: its kind in the lowest three bits, its first field in the next eight, its second above. */
static inline uint64_t fm1_action_key(uint8_t id, int down) { return 0 + 8 * (uint64_t)id + 0x800 * (uint64_t)(down != 0); }
static inline uint64_t fm1_action_enc(uint8_t enc, int32_t clicks) { return 1 + 8 * (uint64_t)enc + 0x800 * (uint64_t)(uint32_t)clicks; }
static inline uint64_t fm1_action_adc(uint8_t ch, uint16_t value) { return 2 + 8 * (uint64_t)ch + 0x800 * (uint64_t)value; }
static inline uint64_t fm1_action_midi(uint8_t b) { return 3 + 8 * (uint64_t)b; }
static inline uint64_t fm1_action_key_vel(uint8_t vel) { return 4 + 8 * (uint64_t)vel; }
static inline uint64_t fm1_action_pressure(uint8_t id, uint8_t vel) { return 5 + 8 * (uint64_t)id + 0x800 * (uint64_t)vel; }

/* ---- calls */

/* A new board at `hz`; queue and script are left alone, the banks are zeroed. CLOCK, SIZE. */
fm1_done_t fm1_new(uint64_t hz, const uint8_t *queue, size_t queue_len, const uint64_t *script, size_t script_len, uint32_t *icfg, size_t icfg_len, uint32_t *icfg1, size_t icfg1_len);

/* The step: the clock goes on by `cycles`, and what is due by then is served. SIZE, STATE, COUNT, TIME. */
fm1_advanced_t fm1_advance(fm1_board_t b, uint64_t cycles, uint8_t *queue, size_t queue_len, const uint64_t *script, size_t script_len, uint8_t *out, size_t out_len);

/* An action for the step that reaches `time`. SIZE, STATE, FULL. */
fm1_done_t fm1_push(fm1_board_t b, uint64_t *script, size_t script_len, uint64_t time, uint64_t action);

/* An action now. SIZE, STATE, COUNT. */
fm1_done_t fm1_apply(fm1_board_t b, uint64_t action, uint8_t *queue, size_t queue_len);

/* A chip reset. SIZE, STATE. */
fm1_done_t fm1_chip_reset(fm1_board_t b, uint32_t *icfg, size_t icfg_len, uint32_t *icfg1, size_t icfg1_len);

/* A register's value; none where the word is plain storage. SIZE, STATE, TIME. */
fm1_reading_t fm1_read(fm1_board_t b, uint32_t addr, const uint32_t *icfg, size_t icfg_len, const uint32_t *icfg1, size_t icfg1_len);

/* Whether the word is a register (`handled`). SIZE, STATE. */
fm1_written_t fm1_write(fm1_board_t b, uint32_t addr, uint32_t v, uint32_t *icfg, size_t icfg_len, uint32_t *icfg1, size_t icfg1_len);

/* A tick of the runner; whether a step is due. STATE, TIME. */
fm1_ticked_t fm1_tick(fm1_board_t b);

/* How many cycles until a step is due. STATE. */
fm1_number_t fm1_tick_room(fm1_board_t b);

/* Whether the next tick makes a step due. STATE. */
fm1_flag_t fm1_next_tick_due(fm1_board_t b);

/* Jumps over idle time. STATE, TIME. */
fm1_done_t fm1_idle(fm1_board_t b);

/* Whether any source pends. STATE. */
fm1_flag_t fm1_any_pending(fm1_board_t b);

/* Whether a core has a source enabled. SIZE, STATE. */
fm1_flag_t fm1_irq_enabled(fm1_board_t b, uint32_t core, uint8_t n, const uint32_t *icfg, size_t icfg_len, const uint32_t *icfg1, size_t icfg1_len);

/* The interrupt that a core takes. SIZE, STATE. */
fm1_chosen_t fm1_pending_irq_for(fm1_board_t b, uint32_t core, const uint32_t *icfg, size_t icfg_len, const uint32_t *icfg1, size_t icfg1_len);

/* Core 0's. SIZE, STATE. */
fm1_chosen_t fm1_pending_irq(fm1_board_t b, const uint32_t *icfg, size_t icfg_len, const uint32_t *icfg1, size_t icfg1_len);

/* How long each LED was lit since the last call, and over how long. STATE. */
fm1_lit_t fm1_led_take(fm1_board_t b);

/* A transfer on SPI1. STATE, PARAM, COUNT. */
fm1_done_t fm1_spi1_start(fm1_board_t b, uint32_t bytes, uint32_t baud, uint8_t irq);

/* A transfer on SPI2. STATE, PARAM. */
fm1_done_t fm1_spi2_start(fm1_board_t b, uint32_t bytes, uint32_t baud, uint8_t irq);

/* SPI1's interrupt off. STATE. */
fm1_done_t fm1_spi1_irq_off(fm1_board_t b);

/* A byte into the matrix's shift registers. STATE. */
fm1_done_t fm1_sr_shift_byte(fm1_board_t b, uint8_t byte);

/* The clock in milliseconds. STATE. */
fm1_number_t fm1_ms(fm1_board_t b);

/* Milliseconds in cycles. STATE, PARAM. */
fm1_number_t fm1_cycle_of_ms(fm1_board_t b, uint64_t ms);

/* MIDI bytes that wait to arrive. STATE. */
fm1_number_t fm1_midi_queued(fm1_board_t b);

/* MIDI bytes dropped. STATE. */
fm1_number_t fm1_midi_dropped(fm1_board_t b);

/* Cycles a tick. STATE. */
fm1_done_t fm1_set_cycle_ticks(fm1_board_t b, uint64_t ticks);

/* Whether count reads skip idle time. STATE. */
fm1_done_t fm1_set_skip_idle(fm1_board_t b, uint8_t on);

/* Whether an interrupt is being served. STATE. */
fm1_done_t fm1_set_in_isr(fm1_board_t b, uint8_t on);

/* The most cycles that `fm1_tick_room` answers. STATE. */
fm1_done_t fm1_set_room_cap(fm1_board_t b, uint64_t cap);

/* Whether an exception pends. STATE. */
fm1_done_t fm1_set_exc_pending(fm1_board_t b, uint8_t on);

/* Whether SPI2 pends. STATE. */
fm1_done_t fm1_set_spi2_pending(fm1_board_t b, uint8_t on);

/* A USB frame's deadline (all ones: never) and its period. STATE, PARAM. */
fm1_done_t fm1_set_usb(fm1_board_t b, uint64_t at, uint64_t period);

/* The watchdog's deadline (all ones: never). STATE, PARAM. */
fm1_done_t fm1_set_wdt(fm1_board_t b, uint64_t at);

/* A key's id, or `is` 0. */
fm1_said_t fm1_key_id(const uint8_t *name, size_t name_len);

/* An encoder's id, or `is` 0. */
fm1_said_t fm1_enc_id(const uint8_t *name, size_t name_len);

/* A record that marks its fields. It is not whole. */
fm1_board_t fm1_marks(void);

/* A port at power-on; its memory is zeroed. SIZE. */
fm1_port_answered_t fm1_port_new(uint8_t *regs, size_t regs_len);

/* CON or DAT. */
uint32_t fm1_port_read(fm1_port_t p, uint32_t addr);

/* A write to CON or DAT. SIZE, COUNT. */
fm1_port_answered_t fm1_port_write(fm1_port_t p, uint8_t *regs, size_t regs_len, uint32_t addr, uint32_t value);

/* A chip reset and its cause. SIZE, COUNT. */
fm1_port_answered_t fm1_port_chip_reset(fm1_port_t p, uint8_t *regs, size_t regs_len, uint8_t cause);

/* The event, as `value`; it is taken. */
fm1_port_answered_t fm1_port_take_event(fm1_port_t p);

/* A register of the main domain, or of the RTC's where `rtc` is not 0. SIZE. */
fm1_said_t fm1_port_reg(const uint8_t *regs, size_t regs_len, uint16_t addr, uint8_t rtc);

/* Whether two ports are the same. SIZE. */
fm1_said_t fm1_port_same(fm1_port_t a, const uint8_t *regs_a, size_t regs_a_len, fm1_port_t b, const uint8_t *regs_b, size_t regs_b_len);

/* Whether one port at two times has equal snaps. */
uint32_t fm1_port_same_snap(fm1_port_t a, fm1_port_t b);

/* The watchdog's period in ms for a control byte. */
uint64_t fm1_wdt_ms(uint8_t con);

#ifdef __cplusplus
}
#endif

#endif
