/* The zone of examples/zone*.plant for Spin, written by hand: DRAFT 1 asks, 2 has four phases, 3 retains, 4 is zone.plant.
   The network is one that somebody has to believe in: a queue in each direction, which keeps its order and may lose, of at most
   WAITING images. What is sent to a full one is lost. With RESTARTS the robots' controllers restart at any moment. */
#ifndef DRAFT
#define DRAFT 4
#endif
#ifndef WAITING
#define WAITING 4
#endif

/* what R1 has told R2 (ASK, HERE), and R2 R1 (PERMIT, HERE) */
chan to_owner = [WAITING] of { bit, bit };
chan to_asker = [WAITING] of { bit, bit };
bit asks, gives;
bit asker_inside, owner_inside;

inline send(to, one) {
	if
	:: nfull(to) -> to ! one, 1
	:: true
	fi
}

inline forget(from) {
	do
	:: from ? _, _
	:: empty(from) -> break
	od
}

inline look() { assert(!(asker_inside && owner_inside)) }

active proctype R1() {
	bit want, permit, there;
	do
	:: to_asker ? permit, there
	:: to_asker ? _, _
	:: atomic {
		if
		:: want = 0
		:: want = 1
		fi;
#if DRAFT == 1
		asks = want;
#elif DRAFT == 4
		asks = (want && !permit && there) || asks;
		asks = asks && !(permit && !want);
#else
		asks = (want && !permit) || asks;
		asks = asks && !(permit && !want);
#endif
		asker_inside = want && asks && permit;
		want = 0;
		look();
		send(to_owner, asks)
	}
#ifdef RESTARTS
	:: atomic {
		asker_inside = 0;
		permit = 0;
		there = 0;
#if DRAFT < 3
		asks = 0;
#endif
		forget(to_asker)
	}
#endif
	od
}

active proctype R2() {
	bit want, asked, there;
	do
	:: to_owner ? asked, there
	:: to_owner ? _, _
	:: atomic {
		if
		:: want = 0
		:: want = 1
		fi;
#if DRAFT == 1
		gives = asked && !owner_inside;
		owner_inside = want && !gives && !asked;
#elif DRAFT == 4
		gives = (asked && !owner_inside) || gives;
		gives = gives && !(there && !asked);
		owner_inside = want && !gives;
#elif DRAFT == 3
		gives = ((asked && !owner_inside) || gives) && asked;
		owner_inside = want && !gives;
#else
		gives = asked && (gives || !owner_inside);
		owner_inside = want && !gives;
#endif
		want = 0;
		look();
		send(to_asker, gives)
	}
#ifdef RESTARTS
	:: atomic {
		owner_inside = 0;
		asked = 0;
		there = 0;
#if DRAFT < 3
		gives = 0;
#endif
		forget(to_owner)
	}
#endif
	od
}
