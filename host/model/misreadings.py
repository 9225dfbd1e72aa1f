"""Deliberate misreadings of document 01, each a change to one rule of the model.

The comparison must notice every one of them: that shows that its jobs reach the rule.
"""


def joining_by_arrival(model):
    """Parts join in the order in which the run named them, whatever their name."""
    def track_named(cat, run):
        for part in run.named:
            run = model.track(cat, run, part)
        return run
    model.track_named = track_named


def joining_fixed_by_job(model):
    """The first handling of a goal in the job, not in the run, sets the order of joining."""
    read_job, serve_requirement = model.read_job, model.serve_requirement
    name_for_tracking = model.name_for_tracking
    handled, passed_over = set(), []

    def read_fresh(*arguments):
        handled.clear()
        return read_job(*arguments)

    def name_unless_passed_over(cat, run, part):
        if passed_over:
            passed_over.pop()
            return run
        return name_for_tracking(cat, run, part)

    def serve(cat, run, owner, goal, fired):
        if goal in handled:            # a task names its goal's candidates before other parts
            passed_over[:] = model.candidates(cat, goal)
        handled.add(goal)
        return serve_requirement(cat, run, owner, goal, fired)

    model.read_job, model.serve_requirement = read_fresh, serve
    model.name_for_tracking = name_unless_passed_over


def queued_for_served(model):
    """A name counts as opened with several allowed as soon as its task is queued."""
    name_for_tracking = model.name_for_tracking

    def name_unless_queued(cat, run, part):
        name = model.name_of_part(cat, part)
        if cat.names[name] and name in run.state.names:
            return run
        return name_for_tracking(cat, run, part)
    model.name_for_tracking = name_unless_queued


def drawn_before_added(model):
    """A run queues its drawn entries before its added owners."""
    def start_run(cat, state, level):
        run = model.Run(state._replace(added=(), drawn=(), runs=state.runs + 1), level)
        for entry in state.drawn:
            run = model.open_fired(cat, run, entry.owner, entry.goal, (entry.ranges,))
        for owner in state.added:
            run = model.open_owner(run, owner)
        return run
    model.start_run = start_run


def one_forced_late(model):
    """A true part that joins a name with a one-of-name variable sets it."""
    track = model.track

    def track_and_force(cat, run, part):
        joins = part not in run.state.tracked
        run = track(cat, run, part)
        name = model.name_of_part(cat, part)
        one = model.find_variable(run.state, model.Origin('one', name))
        if joins and one is not None and name not in run.new_ones:
            run, variable = model.part_variable(run, part)
            if model.is_value(run, variable, True):
                run = model.forced(run, model.pos(one), len(run.state.clauses) - 1)
        return run
    model.track = track_and_force


def conflicts_on_locks(model):
    """A lock whose part is true is a conflict."""
    with_clause = model.with_clause

    def with_lock_conflict(run, word, literals, reason=None):
        run, clause = with_clause(run, word, literals, reason)
        if word == 'lock':
            true = all(model.literal_value(run.state.decisions, l) is not True for l in literals)
            part = model.is_value(run, literals[1].variable, True)
            run = model.with_conflict(run, clause, true and part)
        return run, clause
    model.with_clause = with_lock_conflict


def gate_from_5(model):
    """A gate takes five candidates."""
    model.GATE_FROM = 5


def favoured_left_out(model):
    """The favoured part stays where file order has it."""
    model.favoured_first = lambda cat, parts: parts


def refusal_9_after_8(model):
    """A decide is tested against the present value before its level is."""
    decide_record = model.decide_record

    def decide(cat, state, limits, variable, value, level):
        if variable < len(state.origins) and value <= 1:
            present = model.value_of(state.decisions, variable)
            model.refuse(8, present is not None and present != (value == 1))
        return decide_record(cat, state, limits, variable, value, level)
    model.SHEET_STEPS[35] = decide


MISREADINGS = (joining_by_arrival, joining_fixed_by_job, queued_for_served, drawn_before_added,
               one_forced_late, conflicts_on_locks, gate_from_5, favoured_left_out, refusal_9_after_8)


def apply(model, name):
    by_name = {misreading.__name__: misreading for misreading in MISREADINGS}
    by_name[name](model)
