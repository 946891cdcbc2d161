//! The flags of calls, each call's in a type of its own, and the capabilities of a client.

use std::ops::BitOr;

macro_rules! flags {
    ($($(#[$doc:meta])* $name:ident: $bits:ty { $($(#[$flag_doc:meta])* $flag:ident = $value:literal;)* })*) => {$(
        $(#[$doc])*
        #[derive(Clone, Copy, Debug, Default, PartialEq, Eq, Hash)]
        #[repr(transparent)]
        pub struct $name($bits);

        impl $name {
            /// No flag.
            pub const NONE: $name = $name(0);
            $($(#[$flag_doc])* pub const $flag: $name = $name($value);)*

            /// The bits, which are the kernel's.
            pub const fn bits(self) -> $bits {
                self.0
            }
        }

        impl BitOr for $name {
            type Output = $name;

            fn bitor(self, other: $name) -> $name {
                $name(self.0 | other.0)
            }
        }
    )*};
}

flags! {
    /// Of a get (msgget(2), semget(2), shmget(2)): what to do where the key has an object or none, and the mode of a new
    /// object, or the rights that are asked for of an existing one.
    GetFlags: u32 {
        /// Creates an object where the key has none.
        CREAT = 0o1000;
        /// With `CREAT`: an existing object is refused.
        EXCL = 0o2000;
    }

    /// Of msgsnd (msgop(2)).
    SendFlags: u32 {
        /// Is refused where it would wait.
        NOWAIT = 0o4000;
    }

    /// Of msgrcv (msgop(2)).
    ReceiveFlags: u32 {
        /// Is refused where it would wait.
        NOWAIT = 0o4000;
        /// Cuts a text that is longer than asked for.
        NOERROR = 0o10000;
        /// With a msgtyp above 0: any other type.
        EXCEPT = 0o20000;
    }

    /// Of one operation of semop (semop(2)).
    SemFlags: u16 {
        /// Is refused where it would wait.
        NOWAIT = 0o4000;
        /// Is undone when the client exits.
        UNDO = 0o10000;
    }

    /// Of shmat (shmop(2)).
    AttachFlags: u32 {
        /// To read alone.
        RDONLY = 0o10000;
    }

    /// The capabilities of a client (capabilities(7)).
    Caps: u32 {
        /// CAP_IPC_OWNER.
        IPC_OWNER = 1;
        /// CAP_SYS_ADMIN.
        SYS_ADMIN = 2;
        /// CAP_SYS_RESOURCE.
        SYS_RESOURCE = 4;
        /// CAP_SETUID.
        SETUID = 8;
        /// CAP_SETGID.
        SETGID = 16;
    }
}

impl GetFlags {
    /// The low nine bits of a mode, as `0o660`: those of a new object, or the rights that are asked for of an existing one.
    pub const fn mode(mode: u32) -> GetFlags {
        GetFlags(mode & 0o777)
    }
}
