//! The rule rows: each case that the document's rules tell apart.

/// Which steps can meet a row.
#[derive(Clone, Copy, Debug, PartialEq, Eq)]
pub enum MetBy {
    IssueOrRetry,
    /// A fence never waits, so no retry meets one.
    IssueAlone,
    /// A step that handles or moves a message.
    OwnStep,
}

macro_rules! rows {
    ($($row:ident: $met_by:ident, $name:literal, $thesis:literal;)*) => {
        #[derive(Clone, Copy, Debug, PartialEq, Eq)]
        pub enum Row { $($row),* }

        impl Row {
            pub const ALL: &[Row] = &[$(Row::$row),*];

            pub fn met_by(self) -> MetBy {
                match self { $(Row::$row => MetBy::$met_by),* }
            }

            pub fn name(self) -> &'static str {
                match self { $(Row::$row => $name),* }
            }

            /// The rules of the thesis, figures 4-9, 4-10 and 4-17, that it goes through; none for what has no rule there.
            pub fn thesis(self) -> &'static str {
                match self { $(Row::$row => $thesis),* }
            }
        }
    };
}

rows! {
    LoadlHit: IssueOrRetry, "Loadl, cached: answered", "C1, C2 or C3";
    LoadlFetch: IssueOrRetry, "Loadl, not cached: fetch", "C1, C4";
    LoadlPendFull: IssueOrRetry, "Loadl waits, pend full", "C1, C5";
    LoadlLinePending: IssueOrRetry, "Loadl waits, line pending", "C1, C5";
    StorelHit: IssueOrRetry, "Storel, cached: word set", "C11, C12, C19";
    StorelFetch: IssueOrRetry, "Storel, not cached: fetch", "C11, C13";
    StorelPendFull: IssueOrRetry, "Storel waits, pend full", "C11, C14";
    StorelLinePending: IssueOrRetry, "Storel waits, line pending", "C11, C14";
    CommitClean: IssueOrRetry, "Commit, word Clean: acknowledged", "C21, C22";
    CommitLinePending: IssueOrRetry, "Commit waits, not cached, line pending", "C21, C26";
    CommitNotCached: IssueOrRetry, "Commit, not cached: acknowledged", "C21, C25";
    CommitWriteBack: IssueOrRetry, "Commit, word Dirty: written back", "C21, C23, C31";
    CommitPendFull: IssueOrRetry, "Commit waits, word Dirty, pend full", "C21, C24";
    ReconcileDirty: IssueOrRetry, "Reconcile, word Dirty: acknowledged", "C33, C37";
    ReconcileDrop: IssueOrRetry, "Reconcile, whole line Clean: dropped", "C33, C36, C41";
    ReconcileWriteBack: IssueOrRetry, "Reconcile, another word Dirty: written back", "C33, C34, C41";
    ReconcilePendFull: IssueOrRetry, "Reconcile waits, another word Dirty, pend full", "C33, C35";
    ReconcileLinePending: IssueOrRetry, "Reconcile waits, not cached, line pending", "C33, C39";
    ReconcileNotCached: IssueOrRetry, "Reconcile, not cached: acknowledged", "C33, C38";
    FenceRr: IssueAlone, "Fence rr: answered", "";
    FenceRw: IssueAlone, "Fence rw: answered", "";
    FenceWr: IssueAlone, "Fence wr: answered", "";
    FenceWw: IssueAlone, "Fence ww: answered", "";
    Send: OwnStep, "send", "";
    ArriveMemoryFirst: OwnStep, "arrive-memory, position 0", "";
    ArriveMemoryLater: OwnStep, "arrive-memory, a later position", "";
    ServeFetch: OwnStep, "serve, fetch", "M1, M2";
    ServeWriteBack: OwnStep, "serve, write-back", "M3, M4, M5";
    SendBack: OwnStep, "send-back", "";
    ArriveSiteFirst: OwnStep, "arrive-site, position 0", "";
    ArriveSiteLater: OwnStep, "arrive-site, a later position", "";
    TakeLoadlEmpty: OwnStep, "take, fetch reply for Loadl: empty place", "C6, C9";
    TakeLoadlClean: OwnStep, "take, fetch reply for Loadl: displaced all Clean", "C6, C8";
    TakeLoadlDirty: OwnStep, "take, fetch reply for Loadl: displaced with a Dirty word", "C6, C7";
    TakeStorelEmpty: OwnStep, "take, fetch reply for Storel: empty place", "C15, C18";
    TakeStorelClean: OwnStep, "take, fetch reply for Storel: displaced all Clean", "C15, C17";
    TakeStorelDirty: OwnStep, "take, fetch reply for Storel: displaced with a Dirty word", "C15, C16";
    TakeCommitEmpty: OwnStep, "take, acknowledgement for Commit: empty place", "C27, C30";
    TakeCommitClean: OwnStep, "take, acknowledgement for Commit: displaced all Clean", "C27, C29";
    TakeCommitDirty: OwnStep, "take, acknowledgement for Commit: displaced with a Dirty word", "C27, C28";
    TakeReconcile: OwnStep, "take, acknowledgement for Reconcile", "C40";
    TakeVoluntary: OwnStep, "take, acknowledgement for a voluntary entry", "C10, C20 or C32";
}
