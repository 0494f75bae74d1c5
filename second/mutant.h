/*
 * Deliberate faults, for `make mutants`: a build with -DMUTANTS carries them
 * all, and a run of it the one whose number the environment variable MUTANT
 * has; the comparison must tell that run from the right program.  A right
 * build has none: MUTATED(...) is then a constant 0 and the branch is gone.
 */
#ifndef SECOND_MUTANT_H
#define SECOND_MUTANT_H

/*
 * Number, name and what is wrong.  1 to 5 are the paper's "Slips seen on benches".
 * Who must tell it apart, by the letter that its line begins with: M the inputs of the comparison, E the lines of
 * entries.h alone, P the comparison's streams alone, S the tests of streams that block, fail or are answered line by line,
 * V the comparison's inputs for the panel, W all words and images, as wordsall.h prints them, B the comparison's inputs
 * for the wiring sheet.
 */
#define MUTANT_LIST(M, E, P, S, V, W, B) \
    M(1, WORDS_UNREDUCED, "32 words put unreduced into the count field") \
    M(2, EQUAL_RANK_TAKES, "an equal-priority task that wakes takes the processor") \
    M(3, PHASE_BEFORE_TICK, "the phase is compared with the count before the tick") \
    M(4, CANCEL_LEAVES_LINKED, "cancel leaves a descendant linked") \
    M(5, UNLATCHED_SATISFIED, "an unlatched wait is satisfied by the value already there") \
    M(6, FIRST_IN_FIRST_OUT, "flags are served first in, first out") \
    M(7, CANCEL_FALLING, "cancel queues the offs by falling task number") \
    M(8, ACTIVATION_FALLING, "tasks are activated by falling number") \
    M(9, LATCHES_SWAPPED, "latched and unlatched conditions are mixed up") \
    M(10, LATCHED_WAITS_ALWAYS, "a latched wait ignores the value already there") \
    M(11, RESTART_STAYED, "a task that finished and that a service activated again goes on running") \
    M(12, HIGHEST_NUMBER_FIRST, "among equals the highest number runs") \
    M(13, PRIVILEGE_IGNORED, "privileged tasks do not rank above the others") \
    M(14, ACTIVATION_KEEPS, "activation leaves the unlatched conditions as they are") \
    M(15, SERVES_CHANGES_ONLY, "a service that changes nothing is dropped") \
    M(16, CYCLE_LIST_REVERSED, "the minor-cycle list is queued last flag first") \
    M(17, WAITS_AT_PRESENT, "a wait until the present count waits") \
    M(18, CANCEL_RESETS, "cancel puts conditions off") \
    M(19, CYCLES_WRAP, "the waking count of R wraps at 32 bits") \
    M(20, UNINVOKED_DEAF, "conditions of uninvoked tasks miss services") \
    M(21, TERMINATE_FAMILY, "terminate takes the descendants along") \
    M(22, WAKES_ON_EITHER, "a waiting task wakes on either value") \
    M(23, CYCLE_BEFORE_TICK, "the minor cycle is that of the count before the tick") \
    M(24, SCHEDULE_KEEPS, "schedule leaves the unlatched conditions as they are") \
    M(25, ONE_FLAG_ENOUGH, "a task is activated with any condition as desired") \
    M(26, CANCEL_SERVES_EARLY, "cancel serves each off before the next task is uninvoked") \
    M(27, RECEIVE_AFTER_TRANSMIT, "transmit, then receive, between two terminals") \
    M(28, NUMBERS_WRAP, "rig numbers wrap at 32 bits") \
    M(29, CROWDED_CYCLE_AT_ONCE, "the 16th flag of a cycle is refused at its line") \
    M(30, SIZES_BEFORE_SHAPE, "a field's size is judged before the next field's shape") \
    M(31, LENGTH_OF_INPUT, "the whole input counts toward the file's length") \
    E(32, AREA_AT_LEAST, "a compool area longer than 33 words a row is taken") \
    E(33, TAG_NOT_WRITTEN, "a block is written without its tag") \
    M(34, SERVES_INSIDE, "an activation's flag is served before the next task is tested") \
    M(35, TERMINATE_LEAVES_LINKED, "terminate leaves the task in its line") \
    M(36, STATE_BEFORE_CONTROLLER, "a task's state is judged before its controller") \
    M(37, WAKES_FIRST_ONLY, "a service wakes only the first task that waits for it") \
    M(38, LAST_LINE_RUNS, "a last script line without LF is run") \
    M(39, SPARE_ZEROS, "script numbers may have spare zeros") \
    M(40, ACTIVATION_SIGNALLED, "activation flags may be signalled") \
    E(41, BLOCKS_OVERLAP, "a row's block starts at 32 words a row") \
    E(42, WRITE_FILLS_BLOCK, "a block write clears the words past the row's own") \
    E(43, REFUSED_WRITE_TAGS, "a refused block write leaves its tag") \
    E(44, READ_FROM_TAG, "a block read begins with the tag") \
    E(45, REFUSED_READ_CLEARS, "a refused block read clears the buffer") \
    E(46, DATA_AT_LEAST, "a buffer longer than the row's words is taken") \
    E(47, BLOCKS_WITHOUT_TASK, "blocks are read and written while no task is running") \
    E(48, ROOM_EXACTLY, "a tick takes a buffer of exactly 128 words alone") \
    E(49, TICK_CLEARS_PAST, "a tick clears the words past those written") \
    P(50, TAIL_RUNS, "the tail of an over-long line is run as a line") \
    P(51, LOST_AT_ROOMS_END, "lines are lost where the output's room is one byte short") \
    P(52, UNFINISHED_UNANSWERED, "an over-long last line without LF is not answered") \
    P(53, LINE_NUMBER_CUT, "line numbers from 4,096 on are told as 0") \
    P(54, PIECE_ENDS_LINE, "a line that comes in two pieces is judged as two") \
    P(55, TAIL_RUNS_TOO, "an over-long line is answered and its tail run besides") \
    S(56, ANSWERS_KEPT, "answers are kept until the room is full or the input ends") \
    S(57, REST_UNWRITTEN, "what a write did not take is lost") \
    S(58, BLOCKED_IS_WRITTEN, "a write that would block is taken for done") \
    S(59, FAILED_WRITE_UNTOLD, "a failed write is not told") \
    S(60, FAILED_READ_ENDS, "a failed read is taken for the end of the input") \
    S(61, LATE_INPUT_ENDS, "a read that would block is taken for the end of the input") \
    W(62, EVEN_PARITY_SENT, "the sending side's parity is even") \
    W(63, LOW_BYTE_COUNTED, "the sending side counts the ones of the low byte alone") \
    W(64, HIGHEST_BIT_UNCOUNTED, "the sending side does not count the highest bit") \
    W(65, PARITY_ABOVE_WORD, "the parity stands above the word in the image") \
    W(66, BIT_CUT, "a field of one bit above 1 is cut to its lowest bit") \
    W(67, EXCEPTION_CLEAN, "an exception is judged clean") \
    W(68, ENTRY_WRONG, "one entry of the monitor's table is wrong") \
    V(69, LAST_WAKES, "the waking count of the last to wake is told, not of the first") \
    V(70, COUNT_FOR_WAKING, "the count is told for the waking count") \
    V(71, ONE_UNSEEN, "none is told where one task alone waits on time") \
    V(72, QUESTION_NEEDS_TASK, "the next waking is refused by 5 while no task is running") \
    V(73, NEXT_COUNT_ALWAYS, "the next count is told, whoever waits") \
    V(74, LOWEST_NUMBER_WAKES, "the waking count of the lowest task number is told") \
    V(75, CYCLES_FOR_WAKING, "the cycles up to the waking are told, not its count") \
    V(76, FLAG_WAITS_HIDE, "none is told while a task waits for a flag") \
    V(77, TOLD_STANDS, "a waking count that was told stands, though its task was cancelled or terminated") \
    V(78, PANEL_TAKES_FIELDS, "a V line with fields is taken") \
    M(79, PANEL_ALWAYS_ON, "the runner answers the panel's verbs") \
    E(80, UNSOUND_IS_NONE, "none is told of a record that is not sound") \
    M(81, OTHER_VALUE_WOKEN, "who waits for the other value is counted as woken, who woke is not") \
    M(82, EITHER_VALUE_WOKEN, "who waits for the other value is counted as woken too") \
    M(83, SCHEDULE_COUNTED, "a schedule's own activation is counted as activated") \
    M(84, START_COUNTED, "a start tells one activated") \
    M(85, LAST_SERVICE_TOLD, "the numbers of the last service are told, not the sums") \
    M(86, FIRST_SERVICE_TOLD, "the numbers of the first service are told, not the sums") \
    M(87, SERVICES_COUNTED, "services that woke or activated somebody are counted, not the tasks") \
    M(88, REFUSAL_TELLS_LAST, "a refusal tells the numbers of the last accepted call") \
    M(89, NUMBERS_STAND, "a call that serves nothing tells the numbers of the last that did") \
    M(90, DUE_COUNTED, "tasks due at a tick's count are counted as woken") \
    M(91, NUMBERS_SWAPPED, "woken and activated are swapped") \
    M(92, ACTIVATED_IS_WOKEN, "an activated task is counted as woken too") \
    M(93, NUMBERS_UNPRINTED, "neither number is printed, as before the request") \
    M(94, NUMBERS_BEHIND, "both numbers are printed behind words and values") \
    V(95, QUESTION_TELLS_LAST, "a V line tells the numbers of the call before it") \
    E(96, BLOCKS_TELL_LAST, "block reads and writes tell the numbers of the call before them") \
    M(97, NEVER_TESTED, "a task that finished or was terminated is not tested again, as before the request") \
    M(98, TESTED_AT_ONCE, "it is tested before its flag is served off") \
    M(99, TESTED_AFTER_ONE, "it is tested after the first service, though more is queued") \
    M(100, ACTIVE_TESTED, "it is tested although it is active already, and activated once more") \
    M(101, CONDITIONS_UNTESTED, "it is activated again whatever its conditions") \
    M(102, CONDITIONED_UNTESTED, "a task with conditions is not tested again") \
    M(103, TERMINATED_UNTESTED, "a task is tested again after finish alone") \
    M(104, FINISHED_UNTESTED, "a task is tested again after terminate alone") \
    M(105, CANCELLED_TESTED, "a cancelled task is tested again too") \
    M(106, TESTED_BY_TICK, "the next tick tests the task, not the call itself") \
    M(107, RESET_BEFORE_TEST, "its unlatched conditions take the undesired value before the test, as by schedule") \
    M(108, AGAIN_KEEPS, "the test's activation leaves the unlatched conditions as they are") \
    M(109, AGAIN_FLAG_LEFT, "the test's activation leaves its flag off") \
    M(110, AGAIN_FLAG_UNSERVED, "the test's activation puts its flag on and does not serve it") \
    M(111, AGAIN_COUNTED, "the test's activation is counted as activated") \
    M(112, FIRST_SERVING_UNTOLD, "the numbers of the services behind the test alone are told") \
    M(113, SECOND_SERVING_UNTOLD, "the numbers of the services before the test alone are told") \
    M(114, AGAIN_STAYED, "a task that the test made active again goes on running among its equals") \
    M(115, AGAIN_RUNS_AHEAD, "a task that the test made active again goes on running whatever the others' rank") \
    M(116, AGAIN_UNCHOSEN, "a task that the test made active again is not chosen to run") \
    M(117, CHOSEN_BEFORE_TEST, "who runs is chosen before the test, and goes on unless the task ranks higher") \
    V(118, OVERRUNS_UNCOUNTED, "overruns are not counted, 0 is told of every task") \
    V(119, STARTED_OVERRUNS, "a task that the very service activated is counted as overrun") \
    V(120, CONDITIONS_OVERRUN, "a service counts once for each condition that names its flag") \
    V(121, OVERRUNS_WRAP, "a number of overruns goes from 65,535 on to 0") \
    V(122, STOP_SHORT, "a number of overruns stops at 65,534") \
    V(123, SCHEDULE_KEEPS_OVERRUNS, "schedule leaves the number of overruns as it is") \
    V(124, CANCEL_CLEARS_OVERRUNS, "cancel sets the number of overruns to 0") \
    V(125, FINISH_CLEARS_OVERRUNS, "finish sets the number of overruns to 0") \
    V(126, TERMINATE_CLEARS_OVERRUNS, "terminate sets the number of overruns to 0") \
    V(127, ACTIVATION_CLEARS_OVERRUNS, "every activation sets the number of overruns to 0, not the schedule alone") \
    V(128, ANY_FLAG_OVERRUNS, "services of plain and activation flags count too") \
    V(129, WAITING_UNCOUNTED, "a waiting task is not counted as overrun") \
    V(130, RUNNING_ALONE_COUNTED, "the running task alone is counted as overrun") \
    V(131, INACTIVE_OVERRUNS, "an inactive task that the flag does not start is counted as overrun") \
    V(132, UNINVOKED_OVERRUNS, "an uninvoked task is counted as overrun") \
    V(133, EVERYBODY_OVERRUNS, "every active task is counted as overrun, whatever flags its conditions name") \
    V(134, ACTIVE_BEFORE_CALL, "a task that an earlier service of the call activated is not counted as overrun") \
    V(135, ONCE_A_CALL, "a call counts once for a task, however many of the task's flags it serves") \
    V(136, OVERRUNS_NEED_TASK, "the number of overruns is refused by 5 while no task is running") \
    V(137, OVERRUNS_NEED_CONTROLLER, "the number of overruns is refused by 7 to a task that does not control the named one") \
    V(138, OVERRUNS_NEED_INVOKED, "the number of overruns of an uninvoked task is refused by 8") \
    V(139, TASK_ZERO_TOLD, "the number of overruns of task 0 is told as 0") \
    V(140, TASKS_ABOVE_TOLD, "the number of overruns of a task that the rig does not have is told as 0") \
    V(141, SECOND_TASK_TAKEN, "an O line with a field too many is taken") \
    V(142, NUMBER_ZERO_UNPRINTED, "a number of overruns that is 0 is not printed") \
    E(143, UNSOUND_HAS_NO_OVERRUNS, "0 overruns are told of a record that is not sound") \
    E(144, NO_SUCH_BEFORE_SOUND, "a task that there cannot be is refused by 6 before the record is found unsound") \
    B(145, TIMES_FROM_PHASE, "a row's times are the periods that fit behind its phase") \
    B(146, FRAME_OF_63, "a frame has 63 cycles") \
    B(147, DUE_ONE_LATE, "a row is due by the count before the tick, one cycle late") \
    B(148, PHASE_IGNORED, "every row is due in cycle 0, whatever its phase") \
    B(149, RECEIVER_ALONE, "a row between two terminals speaks to its receiver alone") \
    B(150, SENDER_ALONE, "a row between two terminals speaks to its sender alone") \
    B(151, MASTER_FOR_TERMINAL, "a row from the master or to it speaks to the master, not to the terminal") \
    B(152, MASTER_LISTED, "the master is spoken to as a terminal is") \
    B(153, ONCE_A_CYCLE, "two commands to a terminal in one cycle count once") \
    B(154, DATA_WORDS_COUNTED, "a terminal's data words are counted, not its commands") \
    B(155, ONE_COMMAND_UNTOLD, "a terminal with one command a frame has no line") \
    B(156, ADDRESS_0_UNTOLD, "address 0 has no line") \
    B(157, ADDRESS_31_UNTOLD, "address 31 has no line, as if it named no terminal") \
    B(158, TERMINALS_FALLING, "terminals come by falling address") \
    B(159, ROWS_FROM_0, "rows are numbered from 0") \
    B(160, PERIOD_BEFORE_PHASE, "a row's period stands before its phase") \
    B(161, ZEROS_IN_CELLS, "an empty cell of the table is a 0") \
    B(162, LAST_CELLS_CUT, "the empty cells at the end of a table's line are left out") \
    B(163, HEADER_NEEDS_ROWS, "the table of a rig with no rows has no header") \
    B(164, LINE_UNTOLD, "a refused rig's line is told as 0") \
    B(165, REFUSED_AS_RUNNER, "a refused rig is told by the runner's word START") \
    B(166, RUN_UNHEEDED, "the rig does not end before the line RUN") \
    V(167, WHY_UNKNOWN, "a Y line is answered by ?, as before the request") \
    V(168, EVERYBODY_STARTS, "every inactive task is told to be able to start") \
    V(169, ANY_CONDITION_ENOUGH, "a task can start if any of its conditions stands or can be brought there") \
    V(170, FIRST_CONDITION_ALONE, "the lowest condition that does not stand is asked about alone") \
    V(171, HIGHEST_TOLD, "the highest condition that blocks is told") \
    V(172, UNDESIRED_TOLD, "the lowest condition that does not stand is told, though it can be brought there") \
    V(173, STANDING_UNSEEN, "a condition that stands as desired must be one that can be brought there") \
    V(174, FLAGS_FOR_CONDITIONS, "a condition stands if one of its flags has the desired value now") \
    V(175, ALL_FLAGS_NEEDED, "all flags of a condition must be able to bring it about, not one") \
    V(176, FIRST_FLAG_ALONE, "the first flag of a condition is looked at alone") \
    V(177, MINOR_BRINGS_NOTHING, "a minor-cycle flag does not bring a condition on") \
    V(178, PLAIN_NOT_ON, "a plain flag does not bring a condition on") \
    V(179, PLAIN_NOT_OFF, "a plain flag does not bring a condition off") \
    V(180, ACTIVE_BRINGS_ON, "the activation flag of an active task brings a condition on") \
    V(181, ACTIVE_NOT_OFF, "the activation flag of an active task does not bring a condition off") \
    V(182, WAITING_NOT_OFF, "the activation flag of a waiting task does not bring a condition off") \
    V(183, INACTIVE_BRINGS_OFF, "the activation flag of an inactive task brings a condition off") \
    V(184, UNINVOKED_STARTS, "an uninvoked task counts as able to start, by its conditions") \
    V(185, LINKED_UNASKED, "an inactive task behind a link counts as able to start, whatever its conditions") \
    V(186, LINKS_UNSEEN, "no link is followed, whatever d") \
    V(187, LINKS_KEPT, "a link does not lower d") \
    V(188, LINKS_SHARED, "the links of all conditions together are counted, not those of one way") \
    V(189, CIRCLES_START, "a task that waits for itself through others counts as able to start") \
    V(190, ZERO_FOLLOWS_ONE, "a d of 0 follows one link") \
    V(191, THREE_FOLLOW_TWO, "a d of 3 follows two links") \
    V(192, WHY_NEEDS_TASK, "the question why is refused by 5 while no task is running") \
    V(193, WHY_NEEDS_CONTROLLER, "the question why is refused by 7 to a task that does not control the named one") \
    V(194, NO_SUCH_BY_STATE, "a task that there is not is refused by 8, since it is not inactive") \
    V(195, STATE_UNJUDGED, "a task that is not inactive is answered by its conditions, not refused by 8") \
    V(196, UNINVOKED_TAKEN, "an uninvoked task is answered by its conditions, not refused by 8") \
    V(197, WAITING_TAKEN, "a waiting task is answered by its conditions, not refused by 8") \
    V(198, LINKS_BEFORE_STATE, "a d above 3 is refused by 11 before the task is found not to be inactive") \
    V(199, LINKS_BEFORE_TASK, "a d above 3 is refused by 11 before the task is found not to be there") \
    V(200, FOUR_LINKS_TAKEN, "a d of 4 is taken") \
    V(201, THREE_LINKS_REFUSED, "a d of 3 is refused by 11") \
    V(202, LINKS_CUT, "any d above 3 is taken for 3") \
    V(203, POSITIONS_FROM_1, "the position of the condition that blocks is counted from 1") \
    V(204, YES_PRINTED, "a task that can start is told by the number 16") \
    V(205, POSITION_0_UNPRINTED, "the position 0 is not printed") \
    V(206, THIRD_NUMBER_TAKEN, "a Y line with a field too many is taken") \
    E(207, UNSOUND_STARTS, "a task of a record that is not sound is told to be able to start") \
    E(208, NO_TASK_BEFORE_SOUND, "the question why of a task that there cannot be is refused by 6 before the record is found unsound") \
    E(209, LINKS_BEFORE_SOUND, "a d above 3 is refused by 11 before the record is found unsound")

#define MUTANT_NAME(number, name, text) MUTANT_##name = number,
enum { MUTANT_LIST(MUTANT_NAME, MUTANT_NAME, MUTANT_NAME, MUTANT_NAME, MUTANT_NAME, MUTANT_NAME, MUTANT_NAME) MUTANT_END };
#undef MUTANT_NAME

/* Where line numbers are cut by the mutant of that name, and the entry that is wrong. */
enum { LINE_NUMBERS_CUT_FROM = 4096, WRONG_ENTRY = 200 };

#ifdef MUTANTS
extern unsigned mutant; /* the number of the fault that this run carries */
#define MUTATED(name) (mutant == MUTANT_##name)
enum { WITH_MUTANTS = 1 };
#else
#define MUTATED(name) 0
enum { WITH_MUTANTS = 0 };
#endif

#endif
