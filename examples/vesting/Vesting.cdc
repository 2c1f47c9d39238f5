import Coin from 0x1

// A grant holds coins that its owner gets in equal parts, one a period. There is no clock here: a period ends when whoever has the
// calendar says so.
access(all) contract Vesting {

    // The right to take what is due.
    access(all) entitlement Claim

    access(all) event PeriodEnd(period: UInt64)
    access(all) event Payout(grant: UInt64, amount: UFix64)

    access(all) let calendarPath: StoragePath

    // How many periods have ended.
    access(all) var period: UInt64

    access(all) resource Calendar {
        access(all) fun endPeriod() {
            Vesting.period = Vesting.period + 1
            emit PeriodEnd(period: Vesting.period)
        }
    }

    access(all) resource Grant {
        access(all) let total: UFix64
        access(all) let start: UInt64
        access(all) let periods: UInt64
        access(all) var payout: UFix64
        access(self) let funds: @Coin.Vault

        init(funds: @Coin.Vault, periods: UInt64) {
            pre { periods > 0: "there is no period" }
            self.total = funds.balance
            self.start = Vesting.period
            self.periods = periods
            self.payout = 0.0
            self.funds <- funds
        }

        // What is due by now, with what was paid out.
        access(all) view fun due(): UFix64 {
            let age = Vesting.period - self.start
            if age >= self.periods {
                return self.total
            }
            return self.total * UFix64(age) / UFix64(self.periods)
        }

        access(Claim) fun claim(): @Coin.Vault {
            pre { self.due() > self.payout: "nothing is due" }
            post {
                self.payout == self.due(): "what is due wasn't paid out"
                self.total == self.payout + self.funds.balance: "the sum changed"
            }
            let amount = self.due() - self.payout
            self.payout = self.payout + amount
            emit Payout(grant: self.uuid, amount: amount)
            return <-self.funds.withdraw(amount: amount)
        }
    }

    access(all) fun grant(funds: @Coin.Vault, periods: UInt64): @Grant {
        return <-create Grant(funds: <-funds, periods: periods)
    }

    init() {
        self.calendarPath = /storage/calendar
        self.period = 0
        self.account.storage.save(<-create Calendar(), to: self.calendarPath)
    }
}
